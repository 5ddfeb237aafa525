#!/bin/sh
# Runs document 01's worked runs through a program that speaks lane's text.
# usage: runs/check.sh PROGRAM [ARGUMENTS]
here=$(dirname "$0")
failed=0
for calls in "$here"/*.calls; do
    expected="${calls%.calls}.expected"
    if "$@" <"$calls" 2>/dev/null | cmp -s - "$expected"; then
        echo "run $(basename "$calls" .calls): as written"
    else
        echo "run $(basename "$calls" .calls): NOT as written"
        failed=1
    fi
done
exit $failed
