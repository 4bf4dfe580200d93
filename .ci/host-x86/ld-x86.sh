#!/bin/sh
# A linker driver for rustc over the toolchain's clang, lld and x86-64 C library.
here=$(cd "$(dirname "$0")" && pwd)
kit=$("$here/kit")
exec "$kit/bin/clang" --target=x86_64-unknown-linux-gnu -fuse-ld="$kit/bin/ld.lld" -B "$here/lib" -L "$here/lib" "$@"
