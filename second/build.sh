#!/bin/sh
# Compiles the second program and the driver and links the engine's library.
#   second/build.sh LIBRARY OUTPUT      e.g. second/build.sh target/libmaltorhu.a target/second
set -eu
if [ $# -ne 2 ]; then
    echo "usage: $0 path/to/libmaltorhu.a OUTPUT" >&2
    exit 2
fi
if [ "$(basename "$1")" != libmaltorhu.a ] || [ ! -f "$1" ]; then
    echo "$0: $1 is not a libmaltorhu.a" >&2
    exit 2
fi
exec rustc --edition 2021 --crate-name second -D warnings \
    -O -C overflow-checks=on -C debug-assertions=on \
    -L "$(dirname "$1")" -l static=maltorhu \
    "$(dirname "$0")/src/main.rs" -o "$2"
