#!/usr/bin/env python3
"""promises.py: each line under "What is proved" in README.md names theorems that stand where it says.

A line names a theorem as `NAME` in `PATH`. Of a file of proofs or specs, that has to state it for others to cite: `pub NAME :`. Of a
file of code, NAME is a function there whose promise says it: `ensures`. The test also has to find fault with altered copies of the page.
"""
import pathlib
import re
import sys

ROOT = pathlib.Path(__file__).resolve().parent.parent
HEADING = "## What is proved\n"
STATED = r"^ *pub NAME :"
# No body begins or ends between the name and the clause.
PROMISED = r'^(?:pub(?:\(crate\))? )?(?:extern "C" )?fn NAME\((?:(?!\n[{}])[\s\S])*?\n *ensures\b'

# Copies of the page that are wrong in one place: what is replaced, and by what.
ALTERED = [
    ("`exactly` in `crates/refusals", "`exactly-so` in `crates/refusals"),
    ("crates/refusals/proofs/Judging.antt", "crates/refusals/proofs/Judged.antt"),
    ("(`draw_kind` in `crates/mortgage/src/draws.rt`)", ""),
    ("`draw_kind` in `crates/mortgage/src/draws.rt`", "`draw_kinds` in `crates/mortgage/src/draws.rt`"),
    ("`list` in `crates/listing", "`main` in `crates/schedule/src/main.rt`, and `list` in `crates/listing"),
    (HEADING, "## What holds\n"),
]


def lines_of(page):
    """The section's bullets, each with the lines that go on."""
    start = page.find(HEADING)
    if start < 0:
        return []
    section = page[start + len(HEADING):].split("\n## ")[0]
    return re.findall(r"^- .*(?:\n  .*)*", section, re.MULTILINE)


def faults_of(page):
    lines = lines_of(page)
    if not lines:
        yield "README.md has no lines under What is proved"
    for line in lines:
        named = re.findall(r"`([^`]+)`\s+in\s+`([^`]+)`", line)
        if not named:
            yield f"no theorem is named in: {line.splitlines()[0]}"
        for name, path in named:
            file = ROOT / path
            if not file.is_file():
                yield f"{path} is not there"
            elif not re.search((PROMISED if path.endswith(".rt") else STATED).replace("NAME", re.escape(name)), file.read_text(), re.MULTILINE):
                yield f"{path} does not state {name}"


def main():
    page = (ROOT / "README.md").read_text()
    faults = list(faults_of(page))
    for old, new in ALTERED:
        if old not in page:
            faults.append(f"no copy can be altered at: {old.strip()}")
        elif not list(faults_of(page.replace(old, new))):
            faults.append(f"an altered copy passed: {old.strip()}")
    for fault in faults:
        print(f"promises: {fault}", file=sys.stderr)
    if not faults:
        named = sum(len(re.findall(r"`[^`]+`\s+in\s+`[^`]+`", line)) for line in lines_of(page))
        print(f"promises: {named} theorems of {len(lines_of(page))} lines stand where README.md says; {len(ALTERED)} altered copies were found out")
    return bool(faults)


sys.exit(main())
