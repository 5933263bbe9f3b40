// What the peers share: files, the script, and what its requests do to layers.

#pragma once

#include <algorithm>
#include <cstdint>
#include <fstream>
#include <iomanip>
#include <iostream>
#include <iterator>
#include <optional>
#include <sstream>
#include <stdexcept>
#include <string>
#include <utility>
#include <vector>

inline std::string read_file(const std::string& path) {
    std::ifstream file(path, std::ios::binary | std::ios::ate);
    if (!file) {
        throw std::runtime_error("cannot read " + path);
    }
    std::string bytes(static_cast<std::size_t>(file.tellg()), '\0');
    file.seekg(0);
    file.read(bytes.data(), static_cast<std::streamsize>(bytes.size()));
    return bytes;
}

// Writes what `put` puts into the stream.
template <typename Put>
void write_file_of(const std::string& path, Put put) {
    std::ofstream file(path, std::ios::binary);
    put(file);
    file.flush();
    if (!file) {
        throw std::runtime_error("cannot write " + path);
    }
}

inline void write_file(const std::string& path, const std::string& bytes) {
    write_file_of(path, [&bytes](std::ostream& file) { file << bytes; });
}

// The words of a line, each without its quotes; the benchmark's scripts have no escapes and no blanks in texts.
inline std::vector<std::string> words_of(const std::string& line) {
    std::istringstream rest(line);
    std::vector<std::string> words;
    std::string word;
    while (rest >> std::quoted(word)) {
        words.push_back(word);
    }
    return words;
}

inline bool is_among(const std::string& name, const std::vector<std::string>& names) {
    return std::find(names.begin(), names.end(), name) != names.end();
}

// A layer's keys or its values, by their ordinals: which of them stay, and the ordinals that these have then.
class Pool {
public:
    // So many entries. Where the pool is compacted those stay that are used, else all.
    Pool(std::size_t count, bool is_compacted) : stays_(count, !is_compacted), ordinals_(count) {}

    void use(std::uint64_t entry) {
        stays_.at(entry) = true;
    }

    // Numbers those that stay. Whether others go.
    bool number() {
        std::uint64_t next = 0;
        for (std::size_t entry = 0; entry < stays_.size(); ++entry) {
            ordinals_[entry] = next;
            next += stays_[entry] ? 1 : 0;
        }
        return next < stays_.size();
    }

    bool stays(std::size_t entry) const {
        return stays_[entry];
    }

    std::uint64_t ordinal(std::uint64_t entry) const {
        return ordinals_[entry];
    }

private:
    std::vector<bool> stays_;
    std::vector<std::uint64_t> ordinals_;
};

// Carries out a script on a tile, and answers each line. A tile has `layer_named`, which gives a layer or none,
// `keep_layers`, which keeps those whose name passes, and over all layers `exclude`, `exclude_all` and `compact`, of
// keys, of values or of both; a layer has `name`, `set_name`, `set_id`, `set_number`, which gives a feature a number as
// an attribute, and `shift`.
template <typename Tile>
class Script {
public:
    explicit Script(Tile& tile) : tile_(tile) {}

    void carry_out(std::istream& script, std::ostream& replies) {
        std::string line;
        while (std::getline(script, line)) {
            if (!is_done(words_of(line))) {
                throw std::runtime_error("refused: " + line);
            }
            replies << "ok" << std::endl;
        }
    }

private:
    using LayerPointer = decltype(std::declval<Tile&>().layer_named(std::string()));

    Tile& tile_;
    // The layer that was renamed last, and its former name.
    std::optional<std::pair<LayerPointer, std::string>> before_;

    bool is_done(const std::vector<std::string>& words) {
        const std::string& request = words.at(0);
        if (request == "undo") {
            return is_undone();
        }
        if (request == "rename-layer") {
            return is_renamed(words.at(1), words.at(2));
        }
        if (request == "keep") {
            tile_.keep_layers([&](const std::string& name) { return is_among(name, {words.begin() + 1, words.end()}); });
            return true;
        }
        if (request == "drop-layer") {
            tile_.keep_layers([&](const std::string& name) { return name != words.at(1); });
            return true;
        }
        if (request == "set-id") {
            LayerPointer layer = tile_.layer_named(words.at(1));
            return layer != nullptr && layer->set_id(std::stoul(words.at(2)), std::stoul(words.at(3)));
        }
        if (request == "set") {
            LayerPointer layer = tile_.layer_named(words.at(1));
            return layer != nullptr && words.at(4) == "uint"
                && layer->set_number(std::stoul(words.at(2)), words.at(3), std::stoul(words.at(5)));
        }
        if (request == "shift") {
            LayerPointer layer = tile_.layer_named(words.at(1));
            return layer != nullptr && layer->shift(std::stoul(words.at(2)), std::stol(words.at(3)), std::stol(words.at(4)));
        }
        if (request == "exclude" && words.at(1) == "*") {
            return tile_.exclude(words.at(2));
        }
        if (request == "exclude-all" && words.at(1) == "*") {
            return tile_.exclude_all();
        }
        const bool of_keys = request == "compact-keys" || request == "compact";
        const bool of_values = request == "compact-values" || request == "compact";
        if ((of_keys || of_values) && words.at(1) == "*") {
            return tile_.compact(of_keys, of_values);
        }
        return false;
    }

    bool is_undone() {
        if (!before_) {
            return false;
        }
        before_->first->set_name(before_->second);
        before_.reset();
        return true;
    }

    bool is_renamed(const std::string& old, const std::string& name) {
        LayerPointer layer = tile_.layer_named(old);
        if (layer == nullptr || tile_.layer_named(name) != nullptr) {
            return false;
        }
        before_.emplace(layer, layer->name());
        layer->set_name(name);
        return true;
    }
};

// Runs a job on the words of a command line: a program, a tile and the file for the edited tile.
template <typename Job>
int run(int count, char** words, Job job) {
    if (count != 3) {
        std::cerr << "usage: " << words[0] << " TILE OUT\n";
        return 2;
    }
    try {
        job(words[1], words[2]);
        return 0;
    } catch (const std::exception& error) {
        std::cerr << error.what() << '\n';
        return 1;
    }
}
