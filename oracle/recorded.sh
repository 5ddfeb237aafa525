#!/bin/sh
# Makes crates/recorded/specs/Recorded.antt anew: the recorded sample in crates/worked, for the definitions to answer.
# usage: recorded.sh [LISTS]   only the first LISTS lists
here=$(cd "$(dirname "$0")" && pwd)
worked=$here/../crates/worked
before=$("$here/runs/joined.sh" expected | wc -l) || exit 1
exec awk -v most="${1:-0}" -v answers="$worked/stdout" -v before="$before" '
function quoted(text) { gsub(/["\\]/, "\\\\&", text); return "\"" text "\"" }
function next_answer() { more = (getline answer <answers) > 0 }
function take() { back[++count] = answer; next_answer() }
# what came back to a line: of the listing a line for each slot, of show one more, else one line; only the listing gives 16
# (of two `list` in a row the first would get all, and the checker would refuse it; the sample has none)
function take_answers(command) {
    count = 0
    if (command != "list" || answer ~ /^refused 16 /) take()
    if (command == "list") while (more && answer ~ /^pid: /) take()
    if (command == "show") while (more && answer ~ /^slot [0-9]+ [A-Z]/) take()
}
function write_reply(line,  i) {
    printf "    %s", place++ ? "∷ " : ""
    if (count == 1) { print "reply " quoted(line) " " quoted(back[1]); return }
    print "record {\n      line = " quoted(line) ";"
    if (!count) print "      back = [];"
    for (i = 1; i <= count; i++) print (i == 1 ? "      back = " : "          ∷ ") quoted(back[i])
    if (count) print "          ∷ [];"
    print "    }"
}
function close_list() {
    if (!lists) return
    print "    ∷ []\n\nright" lists " : right fresh 1 list" lists " ≡ true"
    print "unfolding every_line text_of right list" lists "\nright" lists " = refl\n"
}
function all(name, between,  i, text) { for (i = 1; i <= lists; i++) text = text (i == 1 ? "" : between) name i; return text }
BEGIN {
    print "-- The recorded sample, which oracle/recorded.sh put here: the answers are the Rust'\''s. One list, one claim."
    print "use Rattle.std.specs.Prelude.{◌≡◌, refl, true, List, [], ◌∷◌}"
    print "use Rattle.rules.specs.Model.{fresh}"
    print "use Rattle.recorded.specs.Open.{every_line}"
    print "use Rattle.recorded.specs.Replies.{Reply, reply, text_of, right, wrong}\n"
    while (before-- >= 0) next_answer()
}
# document 01'\''s runs stand before the sample
!sample { sample = /^# The recorded sample/; next }
$0 == "fresh" {
    close_list()
    if (lists == most && most) { cut = 1; exit }
    place = 0
    print "unfoldable pub list" ++lists " : List Reply\nlist" lists " ="
}
{ take_answers($1); write_reply($0) }
END {
    if (!cut) close_list()
    print "unfoldable pub recorded : List (List Reply)\nrecorded = " all("list", " ∷ ") " ∷ []\n"
    print "pub recorded-right : wrong 1 recorded ≡ []\nunfolding wrong recorded\nrecorded-right = rw (" all("right", ", ") ")"
    if (more && !cut) { print "recorded.sh: answers are left over" >"/dev/stderr"; exit 1 }
}' "$worked/stdin" >"$here/../crates/recorded/specs/Recorded.antt"
