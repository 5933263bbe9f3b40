// What the peers on protozero share: its names, and the field numbers that a rename wants.

#pragma once

#include <protozero/pbf_reader.hpp>
#include <protozero/pbf_writer.hpp>

using protozero::pbf_reader;
using protozero::pbf_tag_type;
using protozero::pbf_wire_type;
using protozero::pbf_writer;

constexpr pbf_tag_type tile_layer = 3;
constexpr pbf_tag_type layer_name = 1;
