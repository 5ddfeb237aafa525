#!/bin/sh
# Builds the archive and the benchmark, and runs it; arguments go to the benchmark (--calls N, --rounds N, --seed N).
here=$(cd "$(dirname "$0")" && pwd)
command -v cargo >/dev/null || { echo "bench: cargo is not there" >&2; exit 1; }
ARCHIVE=$("$here/../host/archive.sh") || exit 1
export ARCHIVE
(cd "$here" && cargo build --quiet --release --offline) || exit 1
exec "$here/target/release/bench" "$@"
