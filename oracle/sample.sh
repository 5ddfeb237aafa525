#!/bin/sh
# Makes anew what the program `worked` is run on: crates/worked/stdin has the calls, crates/worked/stdout what comes back.
# First document 01's worked runs, as runs/ has them; then, behind a comment that says so, the recorded sample, with the
# Rust's answers: lists that the judge would send, with a `show` at the end of each. In the last of them a
# system thread is spawned before boot, so init is in slot 1; a child is handed over to it, which wakes it, and it reaps
# that child. Then crates/recorded has the sample too.
here=$(cd "$(dirname "$0")" && pwd)
to=$here/../crates/worked
(cd "$here" && cargo build --quiet --release --offline) || exit 1
sample=$(mktemp) || exit 1
trap 'rm -f "$sample"' EXIT
{
    "$here/target/release/generate" --kind programs --calls 3000 --seed 68
    "$here/target/release/generate" --kind programs --calls 1 --seed 101
} |
    awk 'NR > 1 && $0 == "fresh" { print "show" } { print } END { print "show" }' >"$sample" || exit 1
{
    "$here/runs/joined.sh" calls && echo "# The recorded sample: what the Rust answered." && cat "$sample"
} >"$to/stdin" || exit 1
{
    "$here/runs/joined.sh" expected && "$here/target/release/oracle" --by-document <"$sample"
} >"$to/stdout" || exit 1
"$here/recorded.sh"
