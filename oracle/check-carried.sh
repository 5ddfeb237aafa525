#!/bin/sh
# The carried files are as they were published.
# usage: check-carried.sh [ORIGINALS]
# By their recorded sums; and byte for byte with ORIGINALS, a folder that holds kernel/src, if given.
here=$(cd "$(dirname "$0")" && pwd)
cd "$here" || exit 1
sha256sum --check --quiet carried.sha256 || exit 1
if [ -n "$1" ]; then
    while read -r _ file; do
        original="$1/$file"
        [ "$file" = kernel/LICENSE.txt ] && original="$1/LICENSE.txt"
        cmp "$file" "$original" || exit 1
    done <carried.sha256
    echo "$(wc -l <carried.sha256) carried files, byte for byte as in $1"
else
    echo "$(wc -l <carried.sha256) carried files, as their sums say"
fi
