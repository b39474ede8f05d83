#!/bin/sh
# Builds the static library and times its two calls beside the same calls in
# plain C, after comparing the answers of both.
set -eu

cd "$(dirname "$0")/.."

library=target/staticlib/libcontrol.a
out=target/c
mkdir -p "$out"

tools/static_library

"${CC:-cc}" -std=c11 -O2 -Wall -Wextra -Werror -pedantic -Iinclude -Ibench \
    bench/calls.c bench/plain.c "$library" -o "$out/calls_bench"
exec "$out/calls_bench"
