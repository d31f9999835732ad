#!/usr/bin/env python3
"""header.py LIBRARY: include/senyolanda.h, the crate's exported functions, those that test/library.rs declares for Rust and the library's
symbols are one list. The header asks for a warning of a dropped result exactly where the sentence before a function names refusals,
and its version is the one that make reads.

A function has the same name, the same answer and the same parameters in the header and for Rust as in the crate: their order, their
names, their types and their lengths.

    f64, u32           double, uint32_t
    &[f64]             const double *, size_t     a list to read
    &mut [f64]         double *restrict, size_t   a list to write
    &mut f64           double *restrict           one number to write
    &[f64; 4]          const double [static 4]
    &mut [u8; 21]      uint8_t [restrict static 21]

A length may be a constant, of the crate or of another: COUNTS, listing::ROOM, records::row_record::ROW_SIZE. It also has to find
fault with altered copies of the header and of what is declared for Rust.
"""
import functools
import os
import pathlib
import re
import subprocess
import sys

ROOT = pathlib.Path(__file__).resolve().parent.parent
C_NAMES = {"u8": "uint8_t", "u32": "uint32_t", "u64": "uint64_t", "f64": "double"}
WARNS = r"__attribute__\(\(warn_unused_result\)\)"

# Copies of the header that are wrong in one place: what is replaced, and by what.
ALTERED = [
    ("typedef uint64_t senyolanda_result", "typedef uint32_t senyolanda_result"),
    ("senyolanda_ln(double x,", "senyolanda_log(double x,"),
    ("senyolanda_result senyolanda_ln(", "senyolanda_result senyolanda_log(double x); senyolanda_result senyolanda_ln("),
    ("senyolanda_power(double x, double y,", "senyolanda_power(double y, double x,"),
    ("senyolanda_power(double x, double y,", "senyolanda_power(double x,"),
    ("const uint8_t *record, size_t length, double value,", "const uint8_t *record, double value,"),
    ("uint32_t day_count, uint32_t days,", "uint32_t day_count, double days,"),
    ("double totals[SENYOLANDA_FILLED 3]", "double totals[SENYOLANDA_FILLED 4]"),
    ("const double model[SENYOLANDA_READ 4]", "double model[SENYOLANDA_FILLED 4]"),
    ("#define SENYOLANDA_ROW_BYTES 37", "#define SENYOLANDA_ROW_BYTES 36"),
    ("#define SENYOLANDA_YEAR_PLACES 4", "#define SENYOLANDA_YEAR_PLACES 5"),
    ("const double *years, size_t year_places, uint32_t year,", "const double *years, uint32_t year,"),
    ("double *SENYOLANDA_RESTRICT years, size_t year_places,", "double *SENYOLANDA_RESTRICT lines, size_t year_places,"),
    ("const uint32_t counts[SENYOLANDA_READ SENYOLANDA_LOAN_COUNTS]", "uint32_t counts[SENYOLANDA_FILLED SENYOLANDA_LOAN_COUNTS]"),
    ("not begun, are 14. Refuses 2, 3, 10, 14. */", "not begun, are 14. Never refused. */"),
    ("senyolanda_draw_interest_only(\n    uint32_t months,", "senyolanda_draw_interest_only(\n    uint32_t month,"),
    ("senyolanda_open_balloon(\n    const uint8_t *record, size_t length, uint32_t month,", "senyolanda_open_balloon(\n    uint32_t month, const uint8_t *record, size_t length,"),
    ("double initial, double cap, double lifetime, const double *index,", "double initial, double lifetime, double cap, const double *index,"),
    ("lifetime, const double *index, size_t index_count,", "lifetime, double *SENYOLANDA_RESTRICT index, size_t index_count,"),
    ("lifetime, const double *index, size_t index_count,", "lifetime, const double *index,"),
    ("stands at its index. Refuses 1, 2, 11, 16. */", "stands at its index. Never refused. */"),
    ("inline SENYOLANDA_CHECKED senyolanda_result senyolanda_balloon_draw(", "inline senyolanda_result senyolanda_balloon_draw("),
    ("#define SENYOLANDA_DATED_SWAP_BYTES 38", "#define SENYOLANDA_DATED_SWAP_BYTES 37"),
    ("#define SENYOLANDA_DATE_NUMBERS 3", "#define SENYOLANDA_DATE_NUMBERS 4"),
    ("uint32_t year, uint32_t month, uint32_t day, uint32_t months,", "uint32_t year, uint32_t month, uint32_t months, uint32_t day,"),
    ("from 2 to 109,574. Refuses 15. */", "from 2 to 109,574. Never refused. */"),
    ("#define SENYOLANDA_LOAN_COUNTS 2", "#define SENYOLANDA_LOAN_COUNTS 3"),
    ("#define SENYOLANDA_LOAN_AMOUNTS 3", "#define SENYOLANDA_LOAN_AMOUNTS 2"),
    ("double amounts[SENYOLANDA_FILLED SENYOLANDA_LOAN_AMOUNTS],\n    double *SENYOLANDA_RESTRICT room",
     "const double amounts[SENYOLANDA_READ SENYOLANDA_LOAN_AMOUNTS],\n    double *SENYOLANDA_RESTRICT room"),
    ("#define SENYOLANDA_LISTING_BYTES 96000", "#define SENYOLANDA_LISTING_BYTES 95999"),
    ("const double *history,", "double *SENYOLANDA_RESTRICT history,"),
    ("double *SENYOLANDA_RESTRICT ratio", "double *ratio"),
    ("double *SENYOLANDA_RESTRICT ratio", "float *SENYOLANDA_RESTRICT ratio"),
    ("uint32_t *SENYOLANDA_RESTRICT periods) SENYOLANDA_CHECKED;", "uint32_t *SENYOLANDA_RESTRICT periods);"),
    ("inline SENYOLANDA_CHECKED senyolanda_result senyolanda_loan_draw(", "inline senyolanda_result senyolanda_loan_draw("),
    ("double y, double *SENYOLANDA_RESTRICT answer);", "double y, double *SENYOLANDA_RESTRICT answer) SENYOLANDA_CHECKED;"),
    ("compounded once a year. Refuses 7, 9. */", "compounded once a year. Never refused. */"),
    ("#define SENYOLANDA_CHECKED __attribute__((warn_unused_result))", "#define SENYOLANDA_CHECKED"),
    ("#define SENYOLANDA_VERSION_MINOR ", "#define SENYOLANDA_VERSION_MINOR 1"),
    ("SENYOLANDA_DOTTED(SENYOLANDA_VERSION_MAJOR, ", "SENYOLANDA_DOTTED(1 + SENYOLANDA_VERSION_MAJOR, "),
]

# Likewise of what is declared for Rust.
ALTERED_FOR_RUST = [
    ("senyolanda_ln(x: f64,", "senyolanda_log(x: f64,"),
    ("senyolanda_power(x: f64, y: f64,", "senyolanda_power(y: f64, x: f64,"),
    ("[record: u8], value: f64,", "record: u8, value: f64,"),
    ("[mut answers: u32]", "[mut answers: f64]"),
    ("totals: &mut [f64; 3]", "totals: &[f64; 3]"),
    ("&'a mut [u32; LOAN_COUNTS]", "&'a mut [u32; LOAN_AMOUNTS]"),
    ("&'a [f64; LOAN_AMOUNTS]", "&'a mut [f64; LOAN_AMOUNTS]"),
    ("[years: f64], year: u32,", "year: u32, [years: f64],"),
    ("initial: f64, cap: f64, lifetime: f64, [index: f64],", "initial: f64, cap: f64, lifetime: f64, index: f64,"),
    ("senyolanda_next_balloon_row(month: u32,", "senyolanda_next_balloon_row(months: u32,"),
    ("second: Date, day_count: Count);", "day_count: Count, second: Date);"),
    ("pub const DATE_NUMBERS: usize = 3", "pub const DATE_NUMBERS: usize = 2"),
    ("pub const ROW_BYTES: usize = 37", "pub const ROW_BYTES: usize = 36"),
    ("pub const ROW_PLACES: usize = 5", "pub const ROW_PLACES: usize = 6"),
    ("pub const YEAR_PLACES: usize = 4", "pub const YEAR_PLACES: usize = 5"),
]


class Unreadable(Exception):
    """Text that has none of the forms above."""


def output_of(*command, given=None):
    return subprocess.run(command, input=given, check=True, stdout=subprocess.PIPE, text=True).stdout


def parameter_of_crate(text):
    match = re.fullmatch(r"(\w+): (?:(&|&mut )(?:(u8|u32|f64)|\[(u8|u32|f64)(?:; (\d+))?\])|(u32|f64))", text)
    if not match:
        raise Unreadable(f"the crate has a parameter `{text}`")
    name, reference, one, item, length, value = match.groups()
    way = {None: "by value", "&": "to read", "&mut ": "to write"}[reference]
    return name, C_NAMES[value or one or item], way, "1" if not item else length or "a list"


def constant(path, text):
    """The number that a constant stands for: one of another crate's module, of its lib.rt where none is named, else of the text."""
    crate, *modules, name = path.split("::") if "::" in path else ("", path)
    if crate:
        text = (ROOT / "crates" / crate / "src" / f"{'/'.join(modules) or 'lib'}.rt").read_text()
    found = re.search(rf"^(?:pub )?const {name}: usize = (\d+);", text, re.M)
    if not found:
        raise Unreadable(f"there is no number {path}")
    return found[1]


def functions_of_crate():
    text = "".join(re.sub("//.*", "", path.read_text()) for path in sorted(ROOT.glob("crates/senyolanda/src/**/*.rt")))
    text = re.sub(r"; ([A-Za-z_][\w:]*)\]", lambda length: f"; {constant(length[1], text)}]", text)
    found = re.findall(r'#\[unsafe\(no_mangle\)\]\s*pub extern "C" fn (\w+)\(([^)]*)\)\s*->\s*(\w+)', text)
    if not found or len(found) != text.count('extern "C"'):
        raise Unreadable('the crate has an extern "C" that is not `#[unsafe(no_mangle)] pub extern "C" fn NAME(..) -> TYPE`')
    return {name: (C_NAMES[answer], [parameter_of_crate(one.strip()) for one in parameters.split(",") if one.strip()])
            for name, parameters, answer in found}


def functions_for_rust(text):
    """What test/library.rs declares: a list stands in brackets, a reference may have a name of its own."""
    references = dict(re.findall(r"^type (\w+)<'a> = &'a (.*);$", text, re.M))

    def parameter(one):
        one = re.sub(r"^\[(mut )?(\w+): (\w+)\]$", r"\2: &\1[\3]", one)
        one = re.sub(r": (\w+)$", lambda kind: f": &{references[kind[1]]}" if kind[1] in references else kind[0], one)
        return parameter_of_crate(re.sub(r"; ([A-Z_]+)\]", lambda length: f"; {constant(length[1], text)}]", one))

    return {name: (C_NAMES["u64"], list(map(parameter, parameters.split(", "))))
            for name, parameters in re.findall(r"^ +(senyolanda_\w+)\((.*)\);$", text, re.M)}


def numbers_for_rust(text):
    return re.findall(r"^pub const (\w+): usize = (\d+);$", text, re.M)


def parameter_of_header(text):
    match = re.fullmatch(r"(const )?(\w+) (\*)?(restrict )?(\w+)(?:\[(restrict )?static (\d+)\])?", text)
    if not match:
        raise Unreadable(f"the header has a parameter `{text}`")
    const, item, pointer, restrict, name, array_restrict, length = match.groups()
    if not pointer and not length:
        return name, item, "by value", "1"
    if bool(const) == bool(restrict or array_restrict):
        raise Unreadable(f"the header has `{text}`: what is not const must be restrict, and nothing else")
    return name, item, "to read" if const else "to write", length or "1"


def with_lists(parameters):
    """A pointer and the size_t after it are one parameter."""
    folded = []
    for name, item, way, extent in parameters:
        if item != "size_t":
            folded.append((name, item, way, extent))
        elif folded and folded[-1][2] != "by value" and folded[-1][3] == "1":
            folded[-1] = (*folded[-1][:3], "a list")
        else:
            raise Unreadable(f"the header has a size_t {name} that counts nothing")
    return folded


@functools.cache
def preprocessed(text):
    return re.sub(r"\s+", " ", output_of("cc", "-std=c99", "-E", "-P", "-x", "c", "-", given=text))


def functions_of_header(text):
    text = preprocessed(text)
    types = {new: old for old, new in re.findall(r"typedef (\w+) (senyolanda_\w+);", text)}
    return {name: (types[answer], with_lists([parameter_of_header(one.strip()) for one in parameters.split(",")]))
            for answer, name, parameters in re.findall(rf"(senyolanda_\w+) (senyolanda_\w+)\(([^()]*)\)(?: {WARNS})? ?;", text)}


def refusals_in(text):
    """For each function of the header the refusals that the sentence before it ends with; one sentence may serve several functions."""
    declared, last = {}, set()
    function = r"^(?:static inline )?(?:SENYOLANDA_CHECKED )?senyolanda_result (\w+)\("
    for comment, name in re.findall(rf"/\*((?:(?!\*/).)*)\*/|{function}", text, re.S | re.M):
        if name:
            declared[name] = last
        else:
            said = re.search(r"[Rr]efuses ([0-9, ]+)\.\s*$", comment)
            last = set(map(int, said[1].split(","))) if said else set()
    return declared


def marked_in(text):
    """The functions whose dropped result the compiler warns of."""
    text = preprocessed(text)
    declared = re.findall(rf"senyolanda_result (senyolanda_\w+)\([^()]*\) {WARNS};", text)
    defined = re.findall(rf"static inline {WARNS} senyolanda_result (senyolanda_\w+)\(", text)
    return {*declared, *defined}


def wrongly_marked(text):
    refusals, marked = refusals_in(text), marked_in(text)
    for name in refusals:
        if bool(refusals[name]) != (name in marked):
            yield f"{name} {'names no refusal and is' if name in marked else 'names refusals and is not'} marked SENYOLANDA_CHECKED"


def version_of(text):
    """The version as the header's string has it."""
    return "".join(re.findall('"([^"]*)"', preprocessed(text + "\nversion: SENYOLANDA_VERSION\n").split("version:")[1]))


def version_of_makefile():
    """The version that make writes into senyolanda.pc."""
    alone = {name: value for name, value in os.environ.items() if name not in ("MAKEFLAGS", "MAKELEVEL")}
    return subprocess.run(["make", "-s", "--eval=version-alone: ; @echo $(VERSION)", "version-alone"], cwd=ROOT, env=alone,
                          check=True, stdout=subprocess.PIPE, text=True).stdout.strip()


def symbols_of(library):
    """The symbols that an archive or a shared library defines for others."""
    which = "--dynamic" if ".so" in library else "--extern-only"
    return {line.split()[-1] for line in output_of("nm", which, "--defined-only", library).splitlines() if " " in line}


def faults(header, rust, crate, symbols, version):
    """What differs between the header's text, what is declared for Rust, the crate's functions, the library's symbols and the Makefile's
    version."""
    try:
        prototypes, declared = functions_of_header(header), functions_for_rust(rust)
    except Unreadable as fault:
        return [str(fault)]
    found = [f"{name} is in the header and not in the crate" for name in sorted(prototypes.keys() - crate.keys())]
    found += [f"{name} is in the crate and not in the header" for name in sorted(crate.keys() - prototypes.keys())]
    found += [f"{name} is in the crate and not in the library" for name in sorted(crate.keys() - symbols)]
    found += [f"{name} is in the library and not in the crate" for name in sorted(symbols - crate.keys())]
    for name in sorted(prototypes.keys() & crate.keys()):
        if prototypes[name] != crate[name]:
            found.append(f"{name} differs\n  header {prototypes[name]}\n  crate  {crate[name]}")
    for name in sorted(declared.keys() | crate.keys()):
        if declared.get(name) != crate.get(name):
            found.append(f"{name} differs\n  test/library.rs {declared.get(name)}\n  crate           {crate.get(name)}")
    found += [f"{name} is {number} in test/library.rs, and not in the header" for name, number in numbers_for_rust(rust)
              if f"#define SENYOLANDA_{name} {number}\n" not in header]
    found += wrongly_marked(header)
    if version_of(header) != version:
        found.append(f"the version is {version_of(header)} in the header and {version} in the Makefile")
    return found


def altered(text, alterations):
    """Copies of the text, and what each has for what."""
    for old, new in alterations:
        if old not in text:
            raise Unreadable(f"there is no `{old}` to alter")
        yield text.replace(old, new, 1), f"`{new}` for `{old}`"


def unfound(header, rust, crate, symbols, version):
    """The alterations that would not be found out."""
    for copy, what in altered(header, ALTERED):
        if not faults(copy, rust, crate, symbols, version):
            yield what
    for copy, what in altered(rust, ALTERED_FOR_RUST):
        if not faults(header, copy, crate, symbols, version):
            yield what
    for missing_or_more in ({"senyolanda_draw"}, {"a_symbol_of_another_name"}):
        if not faults(header, rust, crate, symbols ^ missing_or_more, version):
            yield f"{missing_or_more} in or out of the library"


def main(library):
    header, rust = (ROOT / "include" / "senyolanda.h").read_text(), (ROOT / "test" / "library.rs").read_text()
    known = functions_of_crate(), symbols_of(library), version_of_makefile()
    wrong = faults(header, rust, *known) or [f"{what} is not found out" for what in unfound(header, rust, *known)]
    if wrong:
        sys.exit("\n".join(f"header: {one}" for one in wrong))
    print(f"header: {len(known[0])} functions are alike in the header, for Rust, in the crate and {library}; altered copies are found out")


if __name__ == "__main__":
    try:
        main(sys.argv[1])
    except Unreadable as fault:
        sys.exit(f"header: {fault}")
