// Does the benchmark's jobs with protozero on layers alone: each layer is read as far as its name,
// and all else is copied unread, the layers that keep their names too. So nothing that is copied is
// checked. It is the least work that a rename takes.

#define PROTOZERO_USE_VIEW std::string_view

#include "job.hpp"
#include "protozero_peer.hpp"

#include <string_view>

// The bytes from the start of one view to the start of the other, or to its end.
static std::string_view up_to_start(std::string_view from, std::string_view to) {
    return {from.data(), static_cast<std::size_t>(to.data() - from.data())};
}

static std::string_view up_to_end(std::string_view from, std::string_view to) {
    return {from.data(), static_cast<std::size_t>(to.data() + to.size() - from.data())};
}

static bool is_bytes(const pbf_reader& reader, pbf_tag_type tag) {
    return reader.tag_and_type() == protozero::tag_and_type(tag, pbf_wire_type::length_delimited);
}

class Layer {
public:
    // A layer of these bytes, of which those of the content are read up to the name.
    Layer(std::string_view bytes, std::string_view content) : bytes_(bytes) {
        pbf_reader reader(content);
        before_ = up_to_start(content, reader.data());
        while (reader.next()) {
            if (is_bytes(reader, layer_name)) {
                read_name_ = reader.get_view();
                name_ = read_name_;
                after_ = reader.data();
                return;
            }
            reader.skip();
            before_ = up_to_start(content, reader.data());
        }
        throw std::runtime_error("a layer has no name");
    }

    std::string_view bytes() const {
        return bytes_;
    }

    const std::string& name() const {
        return name_;
    }

    void set_name(const std::string& name) {
        name_ = name;
    }

    // Features are not read.
    bool set_id(std::size_t, std::uint64_t) const {
        return false;
    }

    bool set_number(std::size_t, const std::string&, std::uint64_t) const {
        return false;
    }

    bool shift(std::size_t, std::int64_t, std::int64_t) const {
        return false;
    }

    void drop() {
        is_dropped_ = true;
    }

    bool is_dropped() const {
        return is_dropped_;
    }

    bool is_changed() const {
        return is_dropped_ || name_ != read_name_;
    }

    // Writes the layer with its name as it is now.
    void write(std::ostream& file) const {
        std::string name;
        pbf_writer(name).add_string(layer_name, name_);
        std::string head;
        protozero::add_varint_to_buffer(&head, protozero::tag_and_type(tile_layer, pbf_wire_type::length_delimited));
        protozero::add_varint_to_buffer(&head, before_.size() + name.size() + after_.size());
        file << head << before_ << name << after_;
    }

private:
    std::string_view bytes_;
    // The content before the name's field, and after it.
    std::string_view before_;
    std::string_view after_;
    std::string_view read_name_;
    std::string name_;
    bool is_dropped_ = false;
};

struct Tile {
    std::vector<Layer> layers;

    Layer* layer_named(const std::string& name) {
        for (Layer& layer : layers) {
            if (layer.name() == name && !layer.is_dropped()) {
                return &layer;
            }
        }
        return nullptr;
    }

    template <typename Passes>
    void keep_layers(Passes passes) {
        for (Layer& layer : layers) {
            if (!passes(layer.name())) {
                layer.drop();
            }
        }
    }

    bool exclude(const std::string&) const {
        return false;
    }

    bool exclude_all() const {
        return false;
    }

    bool compact(bool, bool) const {
        return false;
    }
};

static Tile read_tile(const std::string& bytes) {
    Tile tile;
    pbf_reader reader(bytes);
    std::string_view rest = reader.data();
    while (reader.next()) {
        if (is_bytes(reader, tile_layer)) {
            const std::string_view content = reader.get_view();
            tile.layers.emplace_back(up_to_end(rest, content), content);
        } else {
            reader.skip();
        }
        rest = reader.data();
    }
    return tile;
}

static void write_tile(std::ostream& file, std::string_view bytes, const Tile& tile) {
    std::string_view rest = bytes;
    for (const Layer& layer : tile.layers) {
        if (layer.is_changed()) {
            file << up_to_start(rest, layer.bytes());
            if (!layer.is_dropped()) {
                layer.write(file);
            }
            rest.remove_prefix(up_to_end(rest, layer.bytes()).size());
        }
    }
    file << rest;
}

static void edit(const std::string& in, const std::string& out) {
    const std::string bytes = read_file(in);
    Tile tile = read_tile(bytes);
    Script(tile).carry_out(std::cin, std::cout);
    write_file_of(out, [&](std::ostream& file) { write_tile(file, bytes, tile); });
}

int main(int count, char** words) {
    return run(count, words, edit);
}
