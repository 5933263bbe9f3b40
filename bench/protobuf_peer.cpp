// Does the benchmark's jobs with protobuf: the tile is parsed into its messages, layers, ids,
// attributes and geometries change, and the messages are serialized.

#include "job.hpp"
#include "vector_tile.pb.h"

// The way of this ZigZag that leads so much further, as a ZigZag.
static std::uint32_t further(std::uint32_t way, std::int64_t by) {
    const std::int64_t sum = (static_cast<std::int64_t>(way >> 1U) ^ -static_cast<std::int64_t>(way & 1U)) + by;
    return static_cast<std::uint32_t>(sum >= 0 ? 2 * sum : -2 * sum - 1);
}

// Takes out the entries that do not stay.
template <typename Entries>
static void take_out(Entries& entries, const Pool& pool) {
    int left = 0;
    for (int entry = 0; entry < entries.size(); ++entry) {
        if (pool.stays(static_cast<std::size_t>(entry))) {
            entries.SwapElements(left++, entry);
        }
    }
    entries.DeleteSubrange(left, entries.size() - left);
}

class Layer {
public:
    explicit Layer(vector_tile::Tile::Layer& layer) : layer_(&layer) {}

    const std::string& name() const {
        return layer_->name();
    }

    void set_name(const std::string& name) {
        layer_->set_name(name);
    }

    // Whether there is such a feature.
    bool set_id(std::size_t ordinal, std::uint64_t id) {
        if (ordinal >= static_cast<std::size_t>(layer_->features_size())) {
            return false;
        }
        layer_->mutable_features(static_cast<int>(ordinal))->set_id(id);
        return true;
    }

    // Whether there is such a feature. It gets the number as the value of the key.
    bool set_number(std::size_t ordinal, const std::string& key, std::uint64_t number) {
        if (ordinal >= static_cast<std::size_t>(layer_->features_size())) {
            return false;
        }
        const std::uint32_t key_ordinal = key_of(key);
        const std::uint32_t value_ordinal = value_of(number);
        auto& tags = *layer_->mutable_features(static_cast<int>(ordinal))->mutable_tags();
        for (int index = 0; index + 1 < tags.size(); index += 2) {
            if (tags[index] == key_ordinal) {
                tags[index + 1] = value_ordinal;
                return true;
            }
        }
        tags.Add(key_ordinal);
        tags.Add(value_ordinal);
        return true;
    }

    // Whether there is such a feature, and it has a point. The ways to its first point lead so much further.
    bool shift(std::size_t ordinal, std::int64_t dx, std::int64_t dy) {
        if (ordinal >= static_cast<std::size_t>(layer_->features_size())) {
            return false;
        }
        auto& geometry = *layer_->mutable_features(static_cast<int>(ordinal))->mutable_geometry();
        if (geometry.size() < 3) {
            return false;
        }
        geometry[1] = further(geometry[1], dx);
        geometry[2] = further(geometry[2], dy);
        return true;
    }

    // Takes out the pairs of this key.
    void exclude(const std::string& key) {
        std::vector<bool> marked;
        for (const std::string& other : layer_->keys()) {
            marked.push_back(other == key);
        }
        for (auto& feature : *layer_->mutable_features()) {
            auto& tags = *feature.mutable_tags();
            int left = 0;
            for (int index = 0; index + 1 < tags.size(); index += 2) {
                if (!marked.at(tags[index])) {
                    tags[left] = tags[index];
                    tags[left + 1] = tags[index + 1];
                    left += 2;
                }
            }
            tags.Truncate(left);
        }
    }

    void exclude_all() {
        for (auto& feature : *layer_->mutable_features()) {
            feature.clear_tags();
        }
    }

    // Takes out the keys, the values or both that no pair names.
    void compact(bool of_keys, bool of_values) {
        Pool keys(static_cast<std::size_t>(layer_->keys_size()), of_keys);
        Pool values(static_cast<std::size_t>(layer_->values_size()), of_values);
        each_pair([&](std::uint32_t& key, std::uint32_t& value) {
            keys.use(key);
            values.use(value);
        });
        const bool lose_keys = keys.number();
        const bool lose_values = values.number();
        if (lose_keys || lose_values) {
            each_pair([&](std::uint32_t& key, std::uint32_t& value) {
                key = static_cast<std::uint32_t>(keys.ordinal(key));
                value = static_cast<std::uint32_t>(values.ordinal(value));
            });
            take_out(*layer_->mutable_keys(), keys);
            take_out(*layer_->mutable_values(), values);
        }
    }

private:
    vector_tile::Tile::Layer* layer_;

    template <typename See>
    void each_pair(See see) {
        for (auto& feature : *layer_->mutable_features()) {
            auto& tags = *feature.mutable_tags();
            for (int index = 0; index + 1 < tags.size(); index += 2) {
                see(tags[index], tags[index + 1]);
            }
        }
    }

    // The ordinal of a key, which comes at the end where it is missing.
    std::uint32_t key_of(const std::string& key) {
        const auto& keys = layer_->keys();
        const auto found = std::find(keys.begin(), keys.end(), key);
        const auto ordinal = static_cast<std::uint32_t>(found - keys.begin());
        if (found == keys.end()) {
            layer_->add_keys(key);
        }
        return ordinal;
    }

    // The same of a value that is a number without a sign.
    std::uint32_t value_of(std::uint64_t number) {
        const auto& values = layer_->values();
        const auto is_it = [&](const auto& value) { return value.has_uint_value() && value.uint_value() == number; };
        const auto found = std::find_if(values.begin(), values.end(), is_it);
        const auto ordinal = static_cast<std::uint32_t>(found - values.begin());
        if (found == values.end()) {
            layer_->add_values()->set_uint_value(number);
        }
        return ordinal;
    }
};

class Tile {
public:
    explicit Tile(const std::string& bytes) {
        if (!tile_.ParseFromString(bytes)) {
            throw std::runtime_error("no tile");
        }
        find_layers();
    }

    Layer* layer_named(const std::string& name) {
        for (Layer& layer : layers_) {
            if (layer.name() == name) {
                return &layer;
            }
        }
        return nullptr;
    }

    template <typename Passes>
    void keep_layers(Passes passes) {
        auto& layers = *tile_.mutable_layers();
        const auto goes = [&](const auto& layer) { return !passes(layer.name()); };
        layers.erase(std::remove_if(layers.begin(), layers.end(), goes), layers.end());
        find_layers();
    }

    bool exclude(const std::string& key) {
        for (Layer& layer : layers_) {
            layer.exclude(key);
        }
        return true;
    }

    bool exclude_all() {
        for (Layer& layer : layers_) {
            layer.exclude_all();
        }
        return true;
    }

    bool compact(bool of_keys, bool of_values) {
        for (Layer& layer : layers_) {
            layer.compact(of_keys, of_values);
        }
        return true;
    }

    std::string bytes() const {
        return tile_.SerializeAsString();
    }

private:
    vector_tile::Tile tile_;
    std::vector<Layer> layers_;

    void find_layers() {
        layers_.clear();
        for (auto& layer : *tile_.mutable_layers()) {
            layers_.emplace_back(layer);
        }
    }
};

static void edit(const std::string& in, const std::string& out) {
    Tile tile(read_file(in));
    Script(tile).carry_out(std::cin, std::cout);
    write_file(out, tile.bytes());
}

int main(int count, char** words) {
    return run(count, words, edit);
}
