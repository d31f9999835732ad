#!/bin/sh
# dist.sh: the assembly in dist/ is, byte for byte and for each kind of processor, what the crates compile to that were just proved.
set -eu
cd "$(dirname "$0")/.."
room=$(mktemp -d)
trap 'rm -rf "$room"' EXIT
fails() { echo "dist: $1" >&2; exit 1; }
kinds='aarch64 x86-64 x86-64-v3'

# faults DIST: what is wrong with such a folder, a line each
faults() {
    for kind in $kinds; do
        cmp -s "$1/$kind.s" "build/dist/$kind.s" || echo "$1/$kind.s is not what the proved crates compile to; \`make dist\` makes it anew"
    done
    for file in "$1"/*; do
        case " README.md KIT $(printf '%s.s ' $kinds)" in
        *" $(basename "$file") "*) ;;
        *) echo "$file is no part of dist/" ;;
        esac
    done
}

tools/compile --assembly build/dist
if ! cmp -s dist/KIT build/dist/KIT; then
    echo "dist: made by $(paste -sd, dist/KIT), held to $(paste -sd, build/dist/KIT)"
fi
faults dist >"$room/faults"
[ ! -s "$room/faults" ] || { sed 's/^/dist: /' "$room/faults" >&2; exit 1; }

# An altered instruction, a text that is missing and one that nobody made are found out.
altered() { # WORD..: a command that alters the copy
    rm -rf "$room/copy"
    cp -R dist "$room/copy"
    (cd "$room/copy" && "$@")
    [ -n "$(faults "$room/copy")" ] || fails "an altered copy passed: $*"
}
altered sed -i '0,/fmul/s//fdiv/' aarch64.s
altered sed -i '0,/mulsd/s//divsd/' x86-64.s
altered rm x86-64-v3.s
altered touch riscv64.s

# One rounding for each operation: no product and sum are fused, though x86-64-v3 could. It does use AVX2.
for kind in $kinds; do
    ! grep -qE '^\s+(fn?m(add|sub)|fml[as]|vfn?m(add|sub))' "dist/$kind.s" || fails "dist/$kind.s fuses a product and a sum"
    sed -n 's/^\s*\.globl\s*\(senyolanda_[a-z0-9_]*\).*/\1/p' "dist/$kind.s" | sort >"$room/$kind.names"
    cmp -s "$room/$kind.names" "$room/aarch64.names" || fails "dist/$kind.s exports other functions than dist/aarch64.s"
done
grep -q '%ymm' dist/x86-64-v3.s || fails "dist/x86-64-v3.s does without AVX2"
echo "dist: the $(wc -l <"$room/aarch64.names") functions, for $kinds, are what was proved; 4 altered copies were found out"
