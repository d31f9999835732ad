#!/usr/bin/env python3
"""house.py: what holds of every crate, read off its text.

- crates.txt lists for each crate just the crates that it reads, each on a line above its own, and every folder of crates/.
- No public function asks anything of its caller.
- What stands in specs/inner is cited by no other specs and by no public function's promise: a reader need not believe it.
- The bits of a float constant stand in numbers/specs/Literals.antt and in no other specs (a figure of document 01 is no constant).
The test also has to find fault with altered copies of the text.
"""
import functools
import pathlib
import re
import sys

ROOT = pathlib.Path(__file__).resolve().parent.parent
LITERALS = "crates/numbers/specs/Literals.antt"

# Copies that are wrong in one place: which file, what is replaced, and by what.
ALTERED = [
    ("crates.txt", "mortgage: steps", "mortgage: io steps"),
    ("crates.txt", "mortgage: steps", "mortgage:"),
    ("crates.txt", "listing: mortgage", "listing: senyolanda mortgage"),
    ("crates.txt", "schedule: ", "# schedule: "),
    ("crates/mortgage/src/draws.rt", "pub(crate) fn put_row", "pub fn put_row"),
    ("crates/mortgage/src/rows.rt", "pub fn next_row", "pub fn odd_row() requires { 1 < 0 } {}\n\npub fn next_row"),
    ("crates/pool/specs/Price.antt", "use Rattle.pool.specs.Flows.", "use Rattle.pool.specs.inner.Walk."),
    ("crates/book/src/hands.rt", "fn take_in", "pub fn take_in"),
    ("crates/mortgage/specs/Payment.antt", "unfoldable pub monthly_rate", "abbrev pub year : Float\nyear = from_bits binary64 0x4028_0000_0000_0000\n\nunfoldable pub monthly_rate"),
]


def text_of():
    parts = [part for crate in (ROOT / "crates").iterdir() for part in (crate / "src", crate / "specs", crate / "proofs")]
    files = [ROOT / "crates.txt"] + [f for part in parts for f in part.rglob("*") if f.suffix in (".rt", ".antt")]
    return {str(f.relative_to(ROOT)): f.read_text() for f in files}


@functools.lru_cache(maxsize=None)
def without_comments(text):
    return re.sub(r"^\s*(--|//).*$", "", text, flags=re.MULTILINE)


def listed_in(crates_txt):
    lines = (line.split("#")[0] for line in crates_txt.splitlines())
    pairs = (line.split(":") for line in lines if ":" in line)
    return {kind.split()[0]: names.split() for kind, names in pairs}


@functools.lru_cache(maxsize=None)
def named_in(content):
    """The crates that a file may name: in a path of specs or proofs, or of code."""
    return frozenset(re.findall(r"Rattle\.(\w+)\.", content)) | frozenset(re.findall(r"(?<![\w:.])([a-z_]+)::", content))


def faults_of_crates(text):
    listed = listed_in(text["crates.txt"])
    named, order = {}, list(listed)
    for path, content in text.items():
        if path.startswith("crates/"):
            named.setdefault(path.split("/")[1], set()).update(named_in(without_comments(content)))
    for name in sorted(named.keys() - listed.keys()):
        yield f"crates.txt does not list {name}"
    for name, names in listed.items():
        reads = named.get(name, set()) & (listed.keys() | {*names}) - {name}
        for other in sorted(set(names) - reads):
            yield f"{name} lists {other} and does not read it"
        for other in sorted(reads - set(names)):
            yield f"{name} reads {other} and does not list it"
        for other in names:
            if other in listed and order.index(other) > order.index(name):
                yield f"{name} stands above {other}, which it lists"


@functools.lru_cache(maxsize=None)
def functions_of(content):
    """Each function of a file: whether it is public, its name, and its promise, which is each clause in braces before its body."""
    return [(how.strip() == "pub", name, content[begins:body_at(content, begins)]) for how, name, begins in
            ((it[1] or "", it[2], it.end()) for it in re.finditer(r"^ *(pub(?:\(crate\))? )?(?:extern \"C\" )?fn (\w+)", content, re.MULTILINE))]


def body_at(content, at):
    """Where the function's body begins: the first brace that no clause opens."""
    while True:
        at = content.index("{", at)
        if not re.search(r"\b(requires|ensures)\*?(\s+\w+)?\s*\Z", content[:at][-200:]):
            return at
        depth = 0
        for brace in re.finditer(r"[{}]", content[at:]):
            depth += 1 if brace[0] == "{" else -1
            if depth == 0:
                at += brace.end()
                break


def faults_of_promises(text):
    for path, content in text.items():
        inner = set()
        for names in re.findall(r"^(?:ghost )?use Rattle\.\w+\.specs\.inner\.\w+\.\{([^}]*)\}", content, re.MULTILINE):
            inner |= {name.split(" as ")[-1].strip() for name in names.split(",")}
        if "/specs/" in path and "/specs/inner/" not in path and "specs.inner." in without_comments(content):
            yield f"{path} cites inner specs"
        if path.endswith(".rt"):
            for public, name, promise in functions_of(without_comments(content)):
                if public and re.search(r"\brequires\b", promise):
                    yield f"{path}: {name} asks something of its caller"
                for word in sorted(inner if public else ()):
                    if re.search(rf"(?<![\w.'-]){re.escape(word)}(?![\w'-])", promise):
                        yield f"{path}: the promise of {name} cites {word}, which is inner"


def faults_of_constants(text):
    for path, content in text.items():
        if "/specs/" in path and path != LITERALS and not path.startswith("crates/figures/"):
            for bits in re.findall(r"(?:from|of)_bits binary64 (0x\w+)", without_comments(content)):
                yield f"{path} writes {bits}, which belongs into {LITERALS}"


def faults_of(text):
    return [*faults_of_crates(text), *faults_of_promises(text), *faults_of_constants(text)]


def main():
    text = text_of()
    faults = faults_of(text)
    known = len(faults)
    for path, old, new in ALTERED:
        if old not in text[path]:
            faults.append(f"no copy of {path} can be altered at: {old}")
        elif len(faults_of({**text, path: text[path].replace(old, new, 1)})) <= known:
            faults.append(f"an altered copy of {path} passed: {new}")
    for fault in faults:
        print(f"house: {fault}", file=sys.stderr)
    if not faults:
        public = sum(is_public for path in text if path.endswith(".rt") for is_public, _, _ in functions_of(text[path]))
        print(f"house: {len(listed_in(text['crates.txt']))} crates list what they read, {public} public functions ask nothing; {len(ALTERED)} altered copies were found out")
    return bool(faults)


sys.exit(main())
