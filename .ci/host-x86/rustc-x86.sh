#!/bin/sh
# Debian's rustc for Arm with its x86-64 standard library, both unpacked by setup.sh under root/.
here=$(cd "$(dirname "$0")" && pwd)
LD_LIBRARY_PATH=$here/root/usr/lib/aarch64-linux-gnu exec "$here/root/usr/bin/rustc" --sysroot "$here/root/usr" "$@"
