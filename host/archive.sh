#!/bin/sh
# Builds libanwalghid.a, proved, for this machine, and prints the folder that it stands in.
# usage: archive.sh [CLANG'S OPTIONS]   for another machine, as --target=riscv64-unknown-none-elf
# The kit compiles for x86-64. Elsewhere, or with options, rt runs from a stand-in for its kit, whose clang keeps the
# module and the options that it is handed; the kit's clang then compiles that module with the options that are for any machine.
root=$(cd "$(dirname "$0")/.." && pwd)
rt=$(command -v rt) || { echo "archive: rt, the Rattle kit's command, is not there" >&2; exit 1; }
machine=$(uname -m)
if [ "$machine" = x86_64 ] && [ $# -eq 0 ]; then
    (cd "$root/crates/anwalghid" && rt lib) >&2 || exit 1
    echo "$root/crates/anwalghid/out"
    exit
fi
[ $# -gt 0 ] || set -- --target="$machine-unknown-linux-gnu" -fPIC
kit=$(dirname "$(dirname "$(readlink -f "$rt")")")
clang=$kit/toolchain/bin/clang
for part in "$clang" "$kit/bin/rtlib.py"; do
    [ -f "$part" ] || { echo "archive: this kit has no $part, so it compiles for x86-64 alone" >&2; exit 1; }
done
made=$(mktemp -d) || exit 1
trap 'rm -rf "$made"' EXIT
mkdir -p "$made/kit/bin" "$made/kit/toolchain/bin"
# rt takes for its kit the folder that its own file, and not a link to it, stands in
cp "$kit/bin/rt" "$kit/bin/rtlib.py" "$made/kit/bin"
printf '#!/bin/sh\ncp module.bc "%s"\nprintf "%%s\\n" "$@" >"%s/options"\nexec "%s" "$@"\n' "$made" "$made" "$clang" >"$made/kit/toolchain/bin/clang"
chmod +x "$made/kit/toolchain/bin/clang"
for part in "$kit"/* "$kit/bin"/* "$kit/toolchain"/* "$kit/toolchain/bin"/*; do
    [ -e "$made/kit/${part#"$kit"/}" ] || ln -s "$part" "$made/kit/${part#"$kit"/}"
done
(cd "$root/crates/anwalghid" && "$made/kit/bin/rt" lib) >&2 || exit 1
[ -f "$made/module.bc" ] || { echo "archive: the kit's compiler was handed no module" >&2; exit 1; }
to=$root/target/archive
rm -rf "$to"
mkdir -p "$to"
# shellcheck disable=SC2046
(cd "$made" && "$clang" $(grep -vxE -e '--(target|sysroot)=.*|-march=.*|-fPIC|-Werror' options) "$@" -Wno-override-module 2>said) ||
    { cat "$made/said" >&2; exit 1; }
"$kit/toolchain/bin/llvm-ar" rcs "$to/libanwalghid.a" "$made/module.o" || exit 1
echo "$to"
