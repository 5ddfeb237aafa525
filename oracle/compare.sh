#!/bin/sh
# The whole comparison of a program that speaks lane's text with the carried Rust.
# usage: compare.sh [JUDGE'S OPTIONS] -- PROGRAM [ARGUMENTS]
# About 5 million calls: all short lists of depth 4, then random ones from the seed on.
here=$(cd "$(dirname "$0")" && pwd)
command -v cargo >/dev/null || { echo "compare.sh: cargo is not there; it takes Rust" >&2; exit 1; }
"$here/check-carried.sh" || exit 1
(cd "$here" && cargo build --quiet --release --offline) || exit 1
"$here/runs/check.sh" "$here/target/release/oracle" --by-document || exit 1
exec "$here/target/release/judge" --depth 4 --calls 4500000 "$@"
