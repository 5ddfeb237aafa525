#!/bin/sh
# Tests the archive for this machine from C and C++, and the crate over it, and runs the examples of a kernel;
# arguments go to cargo test.
# ARCHIVE=FOLDER names the folder of a libanwalghid.a that is built already.
here=$(cd "$(dirname "$0")" && pwd)
for tool in cargo cc; do
    command -v $tool >/dev/null || { echo "test: $tool is not there" >&2; exit 1; }
done
if [ -n "${ARCHIVE:-}" ]; then
    ARCHIVE=$(cd "$ARCHIVE" && pwd) || exit 1
else
    ARCHIVE=$("$here/archive.sh") || exit 1
fi
export ARCHIVE
made=$(mktemp -d) || exit 1
trap 'rm -rf "$made"' EXIT
# WHAT COMPILER.. FILE: compiled over the archive, and run.
runs() {
    what=$1 && shift
    "$@" -x none "$ARCHIVE/libanwalghid.a" -o "$made/program" && "$made/program" || { echo "test: $what fails" >&2; exit 1; }
}
strict='-Wall -Wextra -Werror'
runs 'the C test' cc -std=c99 $strict "$here/tests/archive.c"
if command -v c++ >/dev/null; then
    runs 'the C test as C++' c++ -std=c++11 $strict -x c++ "$here/tests/archive.c"
else
    echo "test: there is no C++ compiler, so the header was not tried as C++"
fi
runs 'the kernel in C' cc -std=c99 $strict "$here/examples/kernel.c"
cd "$here" && cargo test --offline "$@"
