#!/bin/sh
# faster.sh [KIND]: the tests in C over the library of KIND, which only some of this machine's kind of processors run; and the loader
# takes that library by itself where the processor is one of them. The sanitizers watch the tests themselves, which did run under them.
set -eu
kind=${1:-}
if [ -z "$kind" ]; then
    echo "faster: $(uname -m) has one library for all its processors"
    exit 0
fi
if ! /lib64/ld-linux-x86-64.so.2 --help | grep -q "^ *$kind (supported, searched)"; then
    echo "faster: not run: this processor, or its C library, does not take $kind; \`make test-$kind\` runs it emulated"
    exit 0
fi
test/c/run --plain "build/$kind/libsenyolanda.a"

room=$(mktemp -d)
trap 'rm -rf "$room"' EXIT
echo 'int senyolanda_exp(); int (*volatile named)() = senyolanda_exp; int main(void) { return named == 0; }' >"$room/named.c"
cc "$room/named.c" build/libsenyolanda.so -o "$room/named"
taken=$(LD_LIBRARY_PATH=build LD_TRACE_LOADED_OBJECTS=1 "$room/named" | sed -n 's/.*=> \(.*libsenyolanda[^ ]*\).*/\1/p')
[ "$taken" -ef "build/glibc-hwcaps/$kind/$(basename "$taken")" ] ||
    { echo "faster: the loader takes '$taken' and not the library for $kind" >&2; exit 1; }
echo "faster: the tests in C pass over the library for $kind, and the loader takes it by itself"
