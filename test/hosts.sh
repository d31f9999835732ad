#!/bin/sh
# hosts.sh ARCHIVE LIBRARY: the library called from Rust, with the archive linked in, and from Python, with the shared library loaded.
set -eu
archive=$(readlink -f "${1:?usage: test/hosts.sh ARCHIVE LIBRARY}")
library=$(readlink -f "${2:?usage: test/hosts.sh ARCHIVE LIBRARY}")
here=$(dirname "$0")
room=$(mktemp -d)
trap 'rm -rf "$room"' EXIT
# rustc would look for make's jobs.
unset MAKEFLAGS
rustc --edition 2021 -C link-arg="$archive" -o "$room/from_rust" "$here/from_rust.rs"
"$room/from_rust"
python3 "$here/from_python.py" "$library"
