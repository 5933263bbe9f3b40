// Does the benchmark's jobs with protozero: every field of the tile, of its layers and of their
// features becomes a value of its own, layers, ids, attributes and geometries change, and the values are written in
// order.

#include "job.hpp"
#include "protozero_peer.hpp"

#include <cstdint>
#include <filesystem>
#include <variant>

constexpr pbf_tag_type layer_feature = 2;
constexpr pbf_tag_type layer_key = 3;
constexpr pbf_tag_type layer_value = 4;
constexpr pbf_tag_type feature_id = 1;
constexpr pbf_tag_type feature_tags = 2;
constexpr pbf_tag_type feature_geometry = 4;
constexpr pbf_tag_type value_uint = 5;

// Room for the lengths of messages that are not ended, and for a longer name.
constexpr std::size_t spare = 64;

struct Fixed64 {
    std::uint64_t value;
};

struct Fixed32 {
    std::uint32_t value;
};

struct Field {
    pbf_tag_type tag;
    std::variant<std::uint64_t, Fixed64, Fixed32, std::string> body;
};

// The way of this ZigZag that leads so much further, as a ZigZag.
static std::uint64_t further(std::uint64_t way, std::int64_t by) {
    return protozero::encode_zigzag64(protozero::decode_zigzag64(way) + by);
}

// Calls `see` with the key and the value of each pair of packed tags, and with the pair's bytes.
template <typename See>
static void each_pair(const std::string& tags, See see) {
    const char* at = tags.data();
    const char* const end = at + tags.size();
    while (at != end) {
        const char* const start = at;
        const std::uint64_t key = protozero::decode_varint(&at, end);
        const std::uint64_t value = protozero::decode_varint(&at, end);
        see(key, value, start, at);
    }
}

struct Feature {
    std::vector<Field> fields;

    // The packed tags of a field, or none.
    static std::string* tags_in(Field& field) {
        return field.tag == feature_tags ? std::get_if<std::string>(&field.body) : nullptr;
    }

    // The packed geometry of a field, or none.
    static std::string* geometry_in(Field& field) {
        return field.tag == feature_geometry ? std::get_if<std::string>(&field.body) : nullptr;
    }

    template <typename See>
    void each_tags(See see) {
        for (Field& field : fields) {
            std::string* tags = tags_in(field);
            if (tags != nullptr) {
                see(*tags);
            }
        }
    }

    // Takes out the pairs of the keys that are marked, and the fields that lost all of theirs.
    void exclude(const std::vector<bool>& marked) {
        const auto is_emptied = [&](Field& field) {
            std::string* tags = tags_in(field);
            if (tags == nullptr) {
                return false;
            }
            std::string left;
            left.reserve(tags->size());
            each_pair(*tags, [&](std::uint64_t key, std::uint64_t, const char* start, const char* end) {
                if (!marked.at(key)) {
                    left.append(start, end);
                }
            });
            if (left.size() == tags->size()) {
                return false;
            }
            *tags = std::move(left);
            return tags->empty();
        };
        fields.erase(std::remove_if(fields.begin(), fields.end(), is_emptied), fields.end());
    }

    // Marks the entries that a pair names.
    void use(Pool& keys, Pool& values) {
        each_tags([&](const std::string& tags) {
            each_pair(tags, [&](std::uint64_t key, std::uint64_t value, const char*, const char*) {
                keys.use(key);
                values.use(value);
            });
        });
    }

    // Gives the pairs the new ordinals. None is longer than the old one, so they are written over what was read.
    void renumber(const Pool& keys, const Pool& values) {
        each_tags([&](std::string& tags) {
            char* at = tags.data();
            each_pair(tags, [&](std::uint64_t key, std::uint64_t value, const char*, const char*) {
                at += protozero::add_varint_to_buffer(at, keys.ordinal(key));
                at += protozero::add_varint_to_buffer(at, values.ordinal(value));
            });
            tags.resize(static_cast<std::size_t>(at - tags.data()));
        });
    }

    // Takes out all tags.
    void exclude_all() {
        const auto goes = [](Field& field) { return tags_in(field) != nullptr; };
        fields.erase(std::remove_if(fields.begin(), fields.end(), goes), fields.end());
    }

    // Gives the key this value, in its one packed field of tags or in a new one.
    void set_value(std::uint64_t key, std::uint64_t value) {
        for (Field& field : fields) {
            std::string* tags = tags_in(field);
            if (tags == nullptr) {
                continue;
            }
            std::string present;
            present.reserve(tags->size() + 20);
            bool is_there = false;
            each_pair(*tags, [&](std::uint64_t other, std::uint64_t old, const char*, const char*) {
                protozero::add_varint_to_buffer(&present, other);
                protozero::add_varint_to_buffer(&present, other == key ? value : old);
                is_there = is_there || other == key;
            });
            if (!is_there) {
                protozero::add_varint_to_buffer(&present, key);
                protozero::add_varint_to_buffer(&present, value);
            }
            *tags = std::move(present);
            return;
        }
        std::string fresh;
        protozero::add_varint_to_buffer(&fresh, key);
        protozero::add_varint_to_buffer(&fresh, value);
        fields.push_back({feature_tags, std::move(fresh)});
    }

    // Whether it has a packed geometry. The ways to its first point lead so much further.
    bool shift(std::int64_t dx, std::int64_t dy) {
        for (Field& field : fields) {
            std::string* geometry = geometry_in(field);
            if (geometry == nullptr) {
                continue;
            }
            const char* at = geometry->data();
            const char* const end = at + geometry->size();
            std::string moved;
            moved.reserve(geometry->size() + 10);
            protozero::add_varint_to_buffer(&moved, protozero::decode_varint(&at, end));
            protozero::add_varint_to_buffer(&moved, further(protozero::decode_varint(&at, end), dx));
            protozero::add_varint_to_buffer(&moved, further(protozero::decode_varint(&at, end), dy));
            moved.append(at, end);
            *geometry = std::move(moved);
            return true;
        }
        return false;
    }

    // Whether it has an id. The last one gets the number.
    bool set_id(std::uint64_t id) {
        const auto last = std::find_if(fields.rbegin(), fields.rend(), [](const Field& field) {
            return field.tag == feature_id && std::holds_alternative<std::uint64_t>(field.body);
        });
        if (last == fields.rend()) {
            return false;
        }
        last->body = id;
        return true;
    }
};

struct Layer {
    using Item = std::variant<Field, Feature>;

    std::vector<Item> items;

    Field* name_field() {
        for (auto& item : items) {
            Field* field = std::get_if<Field>(&item);
            if (field != nullptr && field->tag == layer_name) {
                return field;
            }
        }
        throw std::runtime_error("a layer has no name");
    }

    const std::string& name() {
        return std::get<std::string>(name_field()->body);
    }

    void set_name(const std::string& name) {
        name_field()->body = name;
    }

    Feature* feature(std::size_t ordinal) {
        for (auto& item : items) {
            Feature* feature = std::get_if<Feature>(&item);
            if (feature != nullptr && ordinal-- == 0) {
                return feature;
            }
        }
        return nullptr;
    }

    // Whether there is such a feature, and it has an id.
    bool set_id(std::size_t ordinal, std::uint64_t id) {
        Feature* found = feature(ordinal);
        return found != nullptr && found->set_id(id);
    }

    // Whether there is such a feature, and it has a geometry.
    bool shift(std::size_t ordinal, std::int64_t dx, std::int64_t dy) {
        Feature* found = feature(ordinal);
        return found != nullptr && found->shift(dx, dy);
    }

    // Whether there is such a feature. It gets the number as the value of the key.
    bool set_number(std::size_t ordinal, const std::string& key, std::uint64_t number) {
        std::string value;
        pbf_writer(value).add_uint64(value_uint, number);
        const std::uint64_t key_ordinal = entry(layer_key, key);
        const std::uint64_t value_ordinal = entry(layer_value, value);
        Feature* found = feature(ordinal);
        if (found == nullptr) {
            return false;
        }
        found->set_value(key_ordinal, value_ordinal);
        return true;
    }

    // The ordinal of an entry of a pool, which comes at the end where it is missing.
    std::uint64_t entry(pbf_tag_type pool, const std::string& bytes) {
        std::uint64_t ordinal = 0;
        for (const auto& item : items) {
            if (!is_entry(item, pool)) {
                continue;
            }
            if (std::get<std::string>(std::get<Field>(item).body) == bytes) {
                return ordinal;
            }
            ++ordinal;
        }
        items.emplace_back(Field{pool, bytes});
        return ordinal;
    }

    template <typename Change>
    void each_feature(Change change) {
        for (auto& item : items) {
            Feature* feature = std::get_if<Feature>(&item);
            if (feature != nullptr) {
                change(*feature);
            }
        }
    }

    // Takes out the pairs of this key.
    void exclude(const std::string& key) {
        std::vector<bool> marked;
        for (const auto& item : items) {
            if (is_entry(item, layer_key)) {
                marked.push_back(std::get<std::string>(std::get<Field>(item).body) == key);
            }
        }
        each_feature([&](Feature& feature) { feature.exclude(marked); });
    }

    // Takes out the keys, the values or both that no pair names.
    void compact(bool of_keys, bool of_values) {
        Pool keys(count(layer_key), of_keys);
        Pool values(count(layer_value), of_values);
        each_feature([&](Feature& feature) { feature.use(keys, values); });
        const bool lose_keys = keys.number();
        const bool lose_values = values.number();
        if (lose_keys || lose_values) {
            each_feature([&](Feature& feature) { feature.renumber(keys, values); });
            take_out(keys, values);
        }
    }

private:
    static bool is_entry(const Item& item, pbf_tag_type pool) {
        const Field* field = std::get_if<Field>(&item);
        return field != nullptr && field->tag == pool;
    }

    std::size_t count(pbf_tag_type pool) const {
        return std::count_if(items.begin(), items.end(), [&](const Item& item) { return is_entry(item, pool); });
    }

    void take_out(const Pool& keys, const Pool& values) {
        std::size_t key = 0;
        std::size_t value = 0;
        const auto goes = [&](const Item& item) {
            return (is_entry(item, layer_key) && !keys.stays(key++))
                || (is_entry(item, layer_value) && !values.stays(value++));
        };
        items.erase(std::remove_if(items.begin(), items.end(), goes), items.end());
    }
};

struct Tile {
    std::vector<std::variant<Field, Layer>> items;

    Layer* layer_named(const std::string& name) {
        for (auto& item : items) {
            Layer* layer = std::get_if<Layer>(&item);
            if (layer != nullptr && layer->name() == name) {
                return layer;
            }
        }
        return nullptr;
    }

    template <typename Passes>
    void keep_layers(Passes passes) {
        const auto goes = [&](auto& item) {
            Layer* layer = std::get_if<Layer>(&item);
            return layer != nullptr && !passes(layer->name());
        };
        items.erase(std::remove_if(items.begin(), items.end(), goes), items.end());
    }

    template <typename Change>
    void each_layer(Change change) {
        for (auto& item : items) {
            Layer* layer = std::get_if<Layer>(&item);
            if (layer != nullptr) {
                change(*layer);
            }
        }
    }

    bool exclude(const std::string& key) {
        each_layer([&](Layer& layer) { layer.exclude(key); });
        return true;
    }

    bool exclude_all() {
        each_layer([](Layer& layer) { layer.each_feature([](Feature& feature) { feature.exclude_all(); }); });
        return true;
    }

    bool compact(bool of_keys, bool of_values) {
        each_layer([&](Layer& layer) { layer.compact(of_keys, of_values); });
        return true;
    }
};

static bool is_message(const pbf_reader& reader, pbf_tag_type tag) {
    return reader.tag_and_type() == protozero::tag_and_type(tag, pbf_wire_type::length_delimited);
}

static Field read_field(pbf_reader& reader) {
    const pbf_tag_type tag = reader.tag();
    switch (reader.wire_type()) {
        case pbf_wire_type::varint:
            return {tag, reader.get_uint64()};
        case pbf_wire_type::fixed64:
            return {tag, Fixed64{reader.get_fixed64()}};
        case pbf_wire_type::fixed32:
            return {tag, Fixed32{reader.get_fixed32()}};
        default:
            return {tag, reader.get_string()};
    }
}

static Feature read_feature(pbf_reader reader) {
    Feature feature;
    while (reader.next()) {
        feature.fields.push_back(read_field(reader));
    }
    return feature;
}

static Layer read_layer(pbf_reader reader) {
    Layer layer;
    while (reader.next()) {
        if (is_message(reader, layer_feature)) {
            layer.items.emplace_back(read_feature(reader.get_message()));
        } else {
            layer.items.emplace_back(read_field(reader));
        }
    }
    return layer;
}

static Tile read_tile(const std::string& bytes) {
    Tile tile;
    pbf_reader reader(bytes);
    while (reader.next()) {
        if (is_message(reader, tile_layer)) {
            tile.items.emplace_back(read_layer(reader.get_message()));
        } else {
            tile.items.emplace_back(read_field(reader));
        }
    }
    return tile;
}

// Writes an item of a message, whatever it is.
struct Writer {
    pbf_writer& out;

    void operator()(const Field& field) const {
        const pbf_tag_type tag = field.tag;
        std::visit([this, tag](const auto& body) { put(tag, body); }, field.body);
    }

    void operator()(const Feature& feature) const {
        put(layer_feature, feature.fields);
    }

    void operator()(const Layer& layer) const {
        put(tile_layer, layer.items);
    }

    template <typename... Kinds>
    void operator()(const std::variant<Kinds...>& item) const {
        std::visit(*this, item);
    }

private:
    void put(pbf_tag_type tag, std::uint64_t number) const {
        out.add_uint64(tag, number);
    }

    void put(pbf_tag_type tag, Fixed64 eight) const {
        out.add_fixed64(tag, eight.value);
    }

    void put(pbf_tag_type tag, Fixed32 four) const {
        out.add_fixed32(tag, four.value);
    }

    void put(pbf_tag_type tag, const std::string& bytes) const {
        out.add_bytes(tag, bytes);
    }

    // A message of these items. A nested writer would leave an empty one out.
    template <typename Item>
    void put(pbf_tag_type tag, const std::vector<Item>& items) const {
        if (items.empty()) {
            out.add_message(tag, std::string());
            return;
        }
        pbf_writer inside(out, tag);
        for (const Item& item : items) {
            Writer{inside}(item);
        }
    }
};

// The tile's bytes, for which there is room at once.
static std::string write_tile(const Tile& tile, std::size_t size) {
    std::string bytes;
    bytes.reserve(size);
    pbf_writer writer(bytes);
    for (const auto& item : tile.items) {
        Writer{writer}(item);
    }
    return bytes;
}

static void edit(const std::string& in, const std::string& out) {
    Tile tile = read_tile(read_file(in));
    Script(tile).carry_out(std::cin, std::cout);
    write_file(out, write_tile(tile, std::filesystem::file_size(in) + spare));
}

int main(int count, char** words) {
    return run(count, words, edit);
}
