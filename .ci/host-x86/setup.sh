#!/bin/bash
# A Rust compiler for x86-64 on an aarch64 machine, without touching the system. Unpacks Debian's rustc for Arm, its x86-64 standard library and qemu under
# this folder; programs are linked with the toolchain's clang, lld and C library. About 250 MB to fetch and unpack. Not tried by the gate on x86-64.
set -eu
cd "$(dirname "$0")"
here=$PWD
kit=$(./kit)
mkdir -p state/lists/partial cache/archives/partial debs root qroot lib
touch state/status
# An apt of its own: lists, cache and state stand here, and nothing counts as installed.
cat >apt.conf <<EOF
Dir::State "$here/state";
Dir::State::status "$here/state/status";
Dir::Cache "$here/cache";
APT::Architecture "arm64";
APT::Architectures { "arm64"; "amd64"; };
EOF
export APT_CONFIG=$here/apt.conf
apt-get update
(cd debs && apt-get download rustc-web libstd-rust-web-1.96 libstd-rust-web-dev libllvm22 \
    libstd-rust-web-1.96:amd64 libstd-rust-web-dev:amd64 qemu-user-static)
for deb in debs/*.deb; do
    case $deb in *qemu*) dpkg-deb -x "$deb" qroot ;; *) dpkg-deb -x "$deb" root ;; esac
done
# What the linker looks for, over the toolchain's C library.
ln -sf "$kit"/lib/* lib/
ln -sf "$kit/lib/libgcc_s.so.1" lib/libgcc_s.so
ln -sf "$kit/lib/libm.so.6" lib/libm.so
echo "GROUP ( $here/lib/libc.so.6 $here/lib/libc_nonshared.a AS_NEEDED ( $here/lib/ld-linux-x86-64.so.2 ) )" >lib/libc.so
for l in util rt pthread dl; do "$kit/bin/llvm-ar" crs "lib/lib$l.a"; done
./rustc-x86.sh --version
