#!/bin/sh
# cargo at release for x86-64, in a cargo workspace: cargo-x86.sh build|test|run and cargo's words.
here=$(cd "$(dirname "$0")" && pwd)
export RUSTC="$here/rustc-x86.sh"
export CARGO_TARGET_X86_64_UNKNOWN_LINUX_GNU_LINKER="$here/ld-x86.sh"
export CARGO_TARGET_X86_64_UNKNOWN_LINUX_GNU_RUNNER="$here/run-x86.sh"
command=$1
shift
exec cargo "$command" --offline --release --target x86_64-unknown-linux-gnu --target-dir "$here/target" "$@"
