#!/bin/sh
# Runs an x86-64 program under Debian's qemu with the toolchain's C library. The toolchain's own qemu runs C programs, and crashed on Rust ones.
here=$(cd "$(dirname "$0")" && pwd)
kit=$("$here/kit")
exec "$here/qroot/usr/bin/qemu-x86_64-static" "$kit/lib/ld-linux-x86-64.so.2" --library-path "$kit/lib" "$@"
