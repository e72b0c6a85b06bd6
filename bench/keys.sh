#!/bin/sh
# Times calls from C, Rust and Python, in nanoseconds of processor time, and last a key with its frame: from
# the bytes that a terminal sends to those that it is sent; from Rust also by a buffer. ARCHIVE is the folder
# of libtextarea_c.a, KIT the folder `c` of the toolchain.
# usage: bench/keys.sh ARCHIVE KIT
set -e
archive=$1 kit=$2
[ -f "$archive/libtextarea_c.a" ] && [ -f "$kit/liblibc_c.a" ] || { echo "usage: bench/keys.sh ARCHIVE KIT"; exit 1; }
archive=$(realpath "$archive") kit=$(realpath "$kit")
bindings=$(cd "$(dirname "$0")/../bindings" && pwd)
made=$(mktemp -d)
trap 'rm -rf "$made"' EXIT

gcc -O2 -std=c11 "-I$bindings/../include" "$bindings/c/cost.c" "$archive/libtextarea_c.a" "$kit/liblibc_c.a" -o "$made/cost"
gcc -shared -o "$made/libtextarea.so" "-Wl,--whole-archive,$archive/libtextarea_c.a,--no-whole-archive" "$kit/liblibc_c.a"
# Cargo looks up the crates of all features, here among those of Debian if they are there.
debian=/usr/share/cargo/registry
if [ -d "$debian" ]; then
    mkdir "$made/.cargo"
    printf '[source]\ncrates-io.replace-with = "debian"\ndebian.directory = "%s"\n' "$debian" > "$made/.cargo/config.toml"
fi
cp -r "$bindings/rust" "$made/rust"
export TEXTAREA_LIB_DIR="$archive" RATTLE_C_DIR="$kit" CARGO_TARGET_DIR="$made/target"
(cd "$made/rust" && cargo build --offline --quiet --release --example cost)

echo "C"
"$made/cost"
echo "Rust"
"$made/target/release/examples/cost"
echo "Python"
TEXTAREA_LIBRARY="$made/libtextarea.so" PYTHONDONTWRITEBYTECODE=1 python3 "$bindings/python/cost.py"
