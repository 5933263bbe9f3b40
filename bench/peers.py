"""The programs that tileshell is measured beside, and what they need to be built."""
import shutil
import subprocess
import sys
from pathlib import Path

HERE = Path(__file__).parent
BUILD = HERE / "build"

COMPILE = ["g++", "-std=c++17", "-O2", "-Wall", "-Wextra"]


def succeeds(words):
    return shutil.which(words[0]) is not None and subprocess.run(words, capture_output=True).returncode == 0


def has_header(name):
    return succeeds(["g++", "-E", "-include", name, "-x", "c++", "/dev/null"])


def has_world_map():
    return world_map() is not None


def world_map():
    """The world map of Debian's package qgis-common."""
    if shutil.which("dpkg") is None:
        return None
    listed = subprocess.run(["dpkg", "-L", "qgis-common"], capture_output=True, text=True).stdout
    paths = [Path(line) for line in listed.split("\n") if line.endswith("world_map.gpkg")]
    return next((path for path in paths if path.is_file()), None)


# Debian's packages, and how to see that each is there.
NEEDED = {
    "g++": lambda: succeeds(["g++", "--version"]),
    "libprotozero-dev": lambda: has_header("protozero/pbf_reader.hpp"),
    "libprotobuf-dev": lambda: has_header("google/protobuf/message_lite.h"),
    "protobuf-compiler": lambda: succeeds(["protoc", "--version"]),
}

OPTIONAL = {
    "valgrind": (lambda: succeeds(["valgrind", "--version"]), "instructions are not counted"),
    "gdal-bin": (lambda: succeeds(["ogr2ogr", "--version"]), "the two real tiles are left out"),
    "qgis-common": (has_world_map, "the two real tiles are left out"),
    "gnuplot-nox": (lambda: succeeds(["gnuplot", "--version"]), "the plots are left as they are, and not shown"),
}


def check_needed(packages=NEEDED):
    """Ends the benchmark where a package is missing that it cannot go on without."""
    missing = [package for package in packages if not NEEDED[package]()]
    if missing:
        sys.exit("bench: packages of Debian are missing: apt-get install " + " ".join(missing))


def missing_optional():
    """The packages that are missing, and what is left out without each."""
    return {package: loss for package, (is_there, loss) in OPTIONAL.items() if not is_there()}


def build_measure():
    BUILD.mkdir(exist_ok=True)
    compile_program("measure")
    subprocess.run([*COMPILE, "-shared", "-fPIC", "-o", BUILD / "phases.so", HERE / "phases.cpp", "-ldl"], check=True)


def build():
    build_measure()
    messages = BUILD / "vector_tile.pb.cc"
    subprocess.run(["protoc", f"--proto_path={HERE}", f"--cpp_out={BUILD}", HERE / "vector_tile.proto"], check=True)
    compile_program("protozero_peer")
    compile_program("protozero_layers_peer")
    compile_program("protobuf_peer", f"-I{BUILD}", messages, "-lprotobuf-lite", "-pthread")


def compile_program(name, *rest):
    subprocess.run([*COMPILE, "-o", BUILD / name, HERE / f"{name}.cpp", *rest], check=True)
