#!/bin/sh
# Document 01's worked runs as one list.
# usage: runs/joined.sh calls|expected   the calls, with `fresh` between two runs; or what comes back, with its `done`
case $1 in
    calls) between=fresh ;;
    expected) between=done ;;
    *) echo "usage: runs/joined.sh calls|expected" >&2; exit 1 ;;
esac
exec awk -v between="$between" 'FNR == 1 && NR > 1 { print between } { print }' "$(dirname "$0")"/*."$1"
