#!/bin/sh
# Makes each difference of docs/DIFFERENCES.md again, by the Rust, by the plain table, and by PROGRAM if it is given.
# usage: differences.sh [PROGRAM [ARGUMENTS]]
# Builds both profiles.
here=$(cd "$(dirname "$0")" && pwd)
page=$here/../docs/DIFFERENCES.md
target=$here/target
(cd "$here" && cargo build --quiet --release --offline && cargo build --quiet --profile unasserted --offline) || exit 1

# The calls of a line, one on each line.
spread() {
    printf '%s\n' "$1" | awk -F '; ' '{
        for (i = 1; i <= NF; i++) {
            n = 1; call = $i
            if (match(call, /^[0-9]+\* /)) { n = call + 0; call = substr(call, RLENGTH + 1) }
            while (n-- > 0) print call
        }
    }'
}

# The output on one line, with zero bytes and byte 127 made visible.
flat() {
    LC_ALL=C sed 's/\x00/\\0/g; s/\x7f/\\177/g; s/$/;/' | tr '\n' ' '
}

check() {
    case $2 in
        *"${3:-nothing is said}"*) ;;
        *) echo "NOT SO ($1): $title"; echo "  $2"; failed=1 ;;
    esac
}

# Runs an entry. `with` starts the pid counter elsewhere, which PROGRAM can't.
settle() {
    [ -n "$calls" ] || return
    count=$((count + 1))
    text=$(spread "$calls")
    # shellcheck disable=SC2086
    check rust "$(printf '%s\n' "$text" | "$target/$profile/oracle" --unguarded $with 2>/dev/null | flat)" "$rust"
    # shellcheck disable=SC2086
    check plain "$(printf '%s\n' "$text" | "$target/release/model" $with | flat)" "$table"
    if [ $# -gt 0 ] && [ -z "$with" ]; then
        others=$((others + 1))
        check "$1" "$(printf '%s\n' "$text" | "$@" | flat)" "$table"
    fi
}

failed=0 count=0 others=0 title='' calls=''
while IFS= read -r line; do
    case $line in
        '    calls: '*) calls=${line#    calls: } with='' profile=release table='' rust='' ;;
        '    with: '*) with=${line#    with: } ;;
        '    profile: '*) profile=${line#    profile: } ;;
        '    table: '*) table=${line#    table: } ;;
        '    rust: '*) rust=${line#    rust: } ;;
        '**'*) title=$line ;;
        '') settle "$@"; calls='' ;;
    esac
done <"$page"
echo "$count differences made again by the Rust and by the plain table"
[ $# -eq 0 ] || echo "$others of them by $*"
exit $failed
