#!/bin/sh
# impostors.sh: `must-fail/` holds fourteen edits at most; every impostor applies to today's code, and says what it does and where it
# must be refused; and tools/impostors judges as it says, which is tried over a crate of two small functions.
set -eu
cd "$(dirname "$0")/.."
room=$(mktemp -d)
trap 'rm -rf "$room"' EXIT
fails() { echo "impostors: $1" >&2; exit 1; }

[ "$(find crates -path '*/must-fail/*.edit' | wc -l)" -le 14 ] || fails "must-fail/ holds more than fourteen edits"
tools/impostors --read >"$room/read" || { grep NOT "$room/read" >&2; fails "the edits above cannot be tried"; }

# One function has a proof file, of the other the kit makes the proof.
small=$room/crates/small
mkdir -p "$room/tools" "$small/src" "$small/proofs/same" "$small/impostors"
cp tools/impostors tools/counted "$room/tools"
echo 'small:' >"$room/crates.txt"
cat >"$small/src/lib.rt" <<'END'
// Two small functions.
#![tactic(auto)]

ghost use Rattle.std.specs.Prelude.{◌≡◌};

pub fn same(x: u32) -> u32
    ensures { result ≡ x }
{
    let y = x;
    y
}

pub fn seven() -> u32
    ensures { result ≡ 7 }
{
    let y = 7;
    y
}
END
cat >"$small/proofs/same/Answers.antt" <<'END'
use Rattle.std.proofs.Common.{◌≡◌, ℕ, refl}
use Rattle.small.proofs.same.Goals as goal

itself : (n : ℕ) → n ≡ n
itself n = refl

pub returns : goal.returns
returns c = itself c.args.x
END
edit() { printf '# %s\n%s\nfile: %s\nold: %s\nnew: %s\n' "$1" "$2" "$3" "$4" "$5" >"$small/impostors/$1.edit"; }
edit elsewhere 'at: proofs/same' src/lib.rt 'let y = 7;' 'let y = 8;'
edit gone 'at: proofs/same' src/lib.rt 'let y = 9;' 'let y = 8;'
edit ill_formed 'at: proofs/same' src/lib.rt 'let y = x;' 'let y = ;'
edit in_a_file 'at: proofs/same' src/lib.rt 'let y = x;' 'let y = 8;'
edit made_by_the_kit 'at: proofs/seven' src/lib.rt 'let y = 7;' 'let y = 8;'
edit nowhere 'at: proofs/other' src/lib.rt 'let y = 7;' 'let y = 8;'
edit proved 'at: proofs/same' src/lib.rt '// Two' '// Both'
edit shape 'at: proofs/same' src/lib.rt 'same(x: u32)' 'same(z: u32)'
printf 'old: %s\nnew: %s\n' 'result ≡ x' 'result ≡ z' 'let y = x;' 'let y = z;' >>"$small/impostors/shape.edit"
cat >"$room/expected" <<'END'
crate 1 of 1: small, 8 impostors
small/gone: NOT AS IT MUST BE: an old: text stands not just once in src/lib.rt
small/nowhere: NOT AS IT MUST BE: its line at: names no proof of the crate: proofs/other
small/elsewhere: NOT AS IT MUST BE: it is refused first at proofs/seven, not at proofs/same (edit 1 of 6)
small/ill_formed: NOT AS IT MUST BE: it did not reach the prover; see build/impostors/small.log (edit 2 of 6)
small/in_a_file: refused at proofs/same (edit 3 of 6)
small/made_by_the_kit: refused at proofs/seven (edit 4 of 6)
small/proved: NOT AS IT MUST BE: it is still proved (edit 5 of 6)
small/shape: NOT AS IT MUST BE: it is refused because a proof cites what is gone; see build/impostors/small.log (edit 6 of 6)
2 refused, 6 not as they must be
END
if "$room/tools/impostors" small >"$room/said" 2>&1; then fails "wrong edits are called right"; fi
diff "$room/expected" "$room/said" >&2 || fails "an edit is not judged as it must be"
mv "$small/impostors/in_a_file.edit" "$room"
rm "$small"/impostors/*
mv "$room/in_a_file.edit" "$small/impostors"
"$room/tools/impostors" >"$room/said" 2>&1 || { cat "$room/said" >&2; fails "a right edit is called wrong"; }
edit without '' src/lib.rt 'let y = 7;' 'let y = 8;'
if "$room/tools/impostors" --read >"$room/said"; then fails "an edit without a line at: is called right"; fi
rm "$small/impostors/without.edit"
sed -i 's/result ≡ 7/result ≡ 8/' "$small/src/lib.rt"
if "$room/tools/impostors" small >"$room/said" 2>&1; then fails "impostors of a crate that is not proved are called right"; fi
grep -q 'small is not proved as it stands' "$room/said" || fails "nothing says that the crate is not proved"

# What counts is counted, and the gate's log stays as `rt` printed it.
mkdir "$room/bin"
cat >"$room/bin/rt" <<'END'
#!/bin/sh
echo 'checked small::same, 1 of 2'
echo 'fn small::same: proved'
echo 'rt: small: its tests are proved'
echo 'rt: small proved'
[ "$1" != check ] || exit 1
echo 'rt: must-fail small/in_a_file.edit: refused, as it must be: note: src/lib.rt:8:1: it is not proved'
echo "rt: ok; handles allowed: none; must-fail edits: 1 refused${BAD:-}; every proof and must-fail edit was done in this run"
echo '2 passed, 0 failed'
END
chmod +x "$room/bin/rt"
mkdir "$small/must-fail"
cp "$small/impostors/in_a_file.edit" "$small/must-fail"
cd "$room"
PATH=$room/bin:$PATH
"$room/bin/rt" ci >plain
sed 's/^rt: small proved/&, crate 1 of 1/; s/^rt: must-fail.*/&, edit 1 of 1/' plain >counted
tools/counted log rt ci | diff counted - >&2 || fails "tools/counted counts the gate otherwise"
diff plain log >&2 || fails "tools/counted keeps another log"
if tools/counted log rt check >shown 2>whole; then fails "tools/counted passes what fails"; fi
printf '%s\n' 'checked small::same, 1 of 2' 'rt: small proved, crate 1 of 1' | diff - shown >&2 || fails "tools/counted shows more than the count"
diff log whole >&2 || fails "tools/counted does not show the whole of what failed"

# The gate passes what `rt ci` passes, but for bad edits, and what it passed is noted.
mkdir test
cp "$OLDPWD/test/gate" test
cp "$OLDPWD/tools/compile" tools
test/gate build/log >shown && [ -f build/proved ] || fails "test/gate does not pass what rt ci passes"
if BAD=', 1 bad' test/gate build/log >shown 2>&1; then fails "test/gate passes a bad edit"; fi
echo "impostors: as they must be"
