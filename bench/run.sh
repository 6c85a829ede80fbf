#!/bin/sh
# Builds the static library and the benchmark, and runs it: see README.md.
set -eu
here=$(cd "$(dirname "$0")" && pwd -P)
top=$(dirname "$here")
cd "$top"
crates=$(dpkg -L librust-md-5-dev 2>/dev/null | sed -n 's|/[^/]*/Cargo.toml$||p' | head -n 1)
[ -n "$crates" ] || { echo "the crate md-5 is not installed: see bench/README.md" >&2; exit 2; }
if [ "$(uname -m)" = x86_64 ]; then
    (cd crates/dulavimorf && rt lib)
    LIB_DIR=$top/crates/dulavimorf/out
else
    LIB_DIR=$top/target/bench/native
    "$here/native.sh" "$LIB_DIR"
fi
export LIB_DIR
cargo run --manifest-path "$here/Cargo.toml" --target-dir "$top/target/bench/cargo" --release --offline --quiet \
    --config 'source.crates-io.replace-with="debian"' --config "source.debian.directory=\"$crates\""
