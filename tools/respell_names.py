#!/usr/bin/env python3
"""Spells the repository's own definitions and lemmas as today's Rattle spells names: words joined by `_`, no capitals within and no dashes.

usage: tools/respell_names.py [--report]   at the repository's root; with --report it only lists what would be renamed and what would fall together

It was run once, after the scripts of the port. It goes by text: names that a file takes from the kit's library stay, as do names below a
dot that no file of ours declares.
"""

import collections
import glob
import os
import re
import sys

WORD = r"[^\s(){}.;,@\"«»\[\]\\`:]+"
TOKEN = re.compile(r"--[^\n]*|\"(?:[^\"\\\n]|\\.)*\"|«[^»]*»|" + WORD + r"|[.\s(){};,@\[\]\\`:\"«»]", re.S)
CAMEL = re.compile(r"^[a-z][\w']*[A-Z][\w']*$")
DASHED = re.compile(r"^[a-zA-Z][\w']*(?:-[\w'₀-₉]+)+$")
DECLARED = re.compile(r"^[ \t]*(?:data |record )?(?:abbrev |unfoldable )?(?:pub )?(?:abbrev |unfoldable |data |record )?((?:" + WORD + r" )+): ?", re.M)
USE = re.compile(r"^\s*(?:ghost )?(?:pub )?use ([^\s{;]+?)(?:\.\{([^}]*)\}|)(?: as (\S+?))?;?$", re.M)
OWN = None


def crates():
    return sorted(c for c in os.listdir("crates") if os.path.isdir(f"crates/{c}/src"))


def files(*ends):
    out = []
    for folder, dirs, names in os.walk("crates"):
        dirs[:] = [d for d in dirs if d != "out"]
        out += [os.path.join(folder, n) for n in names if n.endswith(ends)]
    return sorted(out)


def is_own(module):
    parts = module.split(".")
    return parts[0] == "Rattle" and len(parts) > 1 and parts[1] in OWN


def declared(text):
    out = set()
    for m in DECLARED.finditer(text):
        for name in m.group(1).split():
            out.add(name)
    return out


def from_outside(text):
    """Names that a file takes from a library that is not ours."""
    out = set()
    for m in USE.finditer(text):
        if not is_own(m.group(1)):
            for it in (m.group(2) or "").split(","):
                it = it.strip()
                if " as " in it:
                    old, _, new = it.partition(" as ")
                    out.add(old.strip())
                elif it:
                    out.add(it)
    return out


def spelled(name):
    # A part that begins with a capital is a fact's name, and keeps it, after `_` too.
    parts = [re.sub(r"(?<=[A-Za-z0-9])([A-Z])", lambda m: "_" + m.group(1).lower(), part) if CAMEL.match(part) else part for part in name.split("-")]
    return "_".join(parts)


def wants(name):
    return bool(CAMEL.match(name) or DASHED.match(name))


# Names that would fall together with a field or a parameter of the source, or that an earlier script had respelled already.
APART = {
    "parRate": "par_rate_of",
    "zeroRates": "zero_rates_of",
    "firstDay": "first_day_of",
    "secondDay": "second_day_of",
    "looked-up": "year_found",
    "no-row-drawn": "year_refused",
    "getD-sets-other": "get_or_sets_other",
    "next_row": "next_row_call",
    "cut_short": "cut_short_lem",
    "each_after": "each_after_lem",
    "minus_one": "minus_one_lem",
    "nothing_yet": "nothing_yet_lem",
}
IN_ANTT_ALONE = {"next_row", "cut_short", "each_after", "minus_one", "nothing_yet"}


def main():
    global OWN
    OWN = set(crates())
    report = "--report" in sys.argv
    antt, rust, edits = files(".antt"), files(".rt"), files(".edit")
    texts = {p: open(p, encoding="utf-8").read() for p in antt + rust + edits}
    names = set()
    for p in antt:
        names |= declared(texts[p])
    outside = set()
    for p in antt:
        outside |= from_outside(texts[p])
    own = {n for n in names if wants(n)}
    # Where a lemma with dashes would get a definition's name, it is told apart by `_lem`.
    defined = {spelled(n) for n in own if CAMEL.match(n)} | {n for n in names | outside if not wants(n)}
    apart = dict(APART)
    for n in own - APART.keys():
        if DASHED.match(n) and not CAMEL.match(n) and spelled(n) in defined:
            apart[n] = spelled(n) + "_lem"
    new_of = lambda n: apart.get(n) or spelled(n)
    kept = collections.Counter()
    before = collections.defaultdict(set)
    changes = {}
    for p in antt + rust + edits:
        text = texts[p]
        external = from_outside(text) if p.endswith((".antt", ".rt")) else outside - own
        here = {m.group(0) for m in TOKEN.finditer(text)}
        reads = {m.group(3): spelled(m.group(3)) + "_reads" for m in USE.finditer(text) if m.group(3) and m.group(1).endswith(".Reads") and wants(m.group(3)) and any(spelled(n) == spelled(m.group(3)) for n in here if n != m.group(3) and (n in own or n in external))}
        whole_file = p.endswith(".antt")
        out, last = [], ""
        for m in TOKEN.finditer(text):
            t = m.group(0)
            new = t
            if t.startswith("--"):
                new = re.sub(r"`([^`\n]+)`", lambda q: "`" + re.sub(WORD, lambda w: new_of(w.group(0)) if w.group(0) in own and w.group(0) not in external else w.group(0), q.group(1)) + "`", t)
            elif t in reads:
                new = reads[t]
            elif t in IN_ANTT_ALONE and whole_file and t not in external and "mod" not in last and not (t == "next_row" and (last == "." or "/senyolanda/" not in p)):
                new = APART[t]
            elif wants(t):
                below_a_dot = last == "."
                if t in external:
                    kept[t] += 1
                elif t in own or (whole_file and not below_a_dot and not t.startswith(("Need-", "After-", "invariant-", "decreases-")) and t[0].islower()):
                    new = new_of(t)
                    before[new].add(t)
            else:
                before[t].add(t)
            out.append(new)
            last = t if not t.isspace() else last if last != "." else " "
        changes[p] = "".join(out)
        assert len("".join(m.group(0) for m in TOKEN.finditer(text))) == len(text), p
    together = {n: olds for n, olds in before.items() if len(olds) > 1}
    if report:
        print(len(own), "names of ours are respelled;", len(together), "fall together:")
        for n in sorted(together):
            print(" ", n, "<-", ", ".join(sorted(together[n])))
        return
    for p, text in changes.items():
        if text != texts[p]:
            open(p, "w", encoding="utf-8").write(text)
    for p in ["README.md"] + sorted(glob.glob("docs/*.md")):
        text = open(p, encoding="utf-8").read()
        new = re.sub(r"`([^`\n]+)`", lambda q: "`" + re.sub(WORD, lambda w: new_of(w.group(0)) if w.group(0) in own else w.group(0), q.group(1)) + "`", text)
        if new != text:
            open(p, "w", encoding="utf-8").write(new)


main()
