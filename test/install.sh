#!/bin/sh
# install.sh: what `make install` puts in place links, by pkg-config, with the archive and with the shared library; what
# `make uninstall` leaves is nothing.
set -eu
cd "$(dirname "$0")/.."
room=$(mktemp -d)
trap 'rm -rf "$room"' EXIT
fails() { echo "install: $1" >&2; exit 1; }

# A packager's way first: staged in a folder, for a place where it is not yet.
make -s install DESTDIR="$room/staged" PREFIX=/usr
[ "$(sed -n 's/^prefix=//p' "$room/staged/usr/lib/pkgconfig/senyolanda.pc")" = /usr ] || fails "the staged senyolanda.pc names another prefix"
staged=$room/staged/usr/lib
case $(uname -m) in
x86_64) [ -f "$staged/glibc-hwcaps/x86-64-v3/$(readlink "$staged/libsenyolanda.so")" ] || fails "the library for x86-64-v3 is not where the loader looks" ;;
*) [ ! -e "$staged/glibc-hwcaps" ] || fails "there is a library that no processor of this machine's kind takes" ;;
esac
make -s uninstall DESTDIR="$room/staged" PREFIX=/usr

place=$room/place
make -s install PREFIX="$place"
cat >"$room/power.c" <<END
#include <senyolanda.h>
int main(void) { return senyolanda_power_of(2.0, 10.0) != 1024.0; }
END
PKG_CONFIG_PATH=$place/lib/pkgconfig
export PKG_CONFIG_PATH
flags=$(pkg-config --cflags --libs senyolanda)

# the flags are words of the command
# shellcheck disable=SC2086
cc "$room/power.c" $flags -o "$room/shared"
LD_LIBRARY_PATH=$place/lib "$room/shared" || fails "a program with the shared library gives another number"
objdump -p "$room/shared" | grep -q 'NEEDED *libsenyolanda\.so\.' || fails "the program does not name the shared library"
find "$place/lib" -name 'libsenyolanda.so*' -exec rm {} +
# shellcheck disable=SC2086
cc "$room/power.c" $flags -o "$room/static"
"$room/static" || fails "a program with the archive gives another number"

"$place/bin/senyolanda" statement 1200 0 3 >"$room/statement" || fails "the program does not run where it was put"
test/record 1200 0 3 | "$place/bin/senyolanda" schedule >"$room/schedule" || fails "its schedule does not run where it was put"

make -s uninstall PREFIX="$place"
make -s build/senyolanda.pc
left=$(find "$room/staged" "$place" ! -type d)
[ -z "$left" ] || fails "uninstall leaves $left"
echo "install: links by pkg-config, shared and static, and leaves nothing behind"
