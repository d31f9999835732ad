#!/usr/bin/env python3
"""refusals.py LIBRARY: every function of the header on arguments sane and hostile, drawn by a fixed seed.

What the header says of each function holds: it refuses with the numbers that its sentence ends with, each of them was seen, and with
no other; a refusal's place is an index of something lent; and a refusal leaves all lent memory as it was.
"""
import ctypes
import pathlib
import random
import struct
import sys

sys.dont_write_bytecode = True
import header  # noqa: E402

CALLS = 3000
C_TYPES = {"double": ctypes.c_double, "uint32_t": ctypes.c_uint32, "uint8_t": ctypes.c_uint8}

HOSTILE_NUMBERS = [float("nan"), float("inf"), float("-inf"), -1.0, -0.0, 0.0, 5e-324, 1e-13, 1e300, 1201.0, 2.0 ** 40]
HOSTILE_COUNTS = [0, 1, 2, 3, 4, 11, 366, 1200, 1201, 2 ** 32 - 1]
SANE_NUMBERS = [0.01, 0.05, 0.5, 1.0, 2.0, 10.0, 100.0, 250000.0]

pick = random.Random(1).choice
chance = random.Random(2).random
any_bytes = random.Random(3).randbytes


def number():
    return pick(SANE_NUMBERS) if chance() < 0.9 else pick(HOSTILE_NUMBERS)


def count():
    return pick([0, 1, 2, 3, 12, 360]) if chance() < 0.8 else pick(HOSTILE_COUNTS)


DATE_RANGES = {"year": range(1900, 2200), "month": range(1, 13), "day": range(1, 31)}
HOSTILE_DATES = {"year": [0, 1899, 2200, 65535], "month": [0, 13, 255], "day": [0, 31, 32, 255]}


def date_part(name):
    """A year, a month or a day, most of them of the calendar."""
    part = name.split("_")[-1]
    return pick(DATE_RANGES[part]) if chance() < 0.97 else pick(HOSTILE_DATES[part])


def dates_of(parameters):
    """The parameters that are the three numbers of a date."""
    names = {name for name, _, way, _ in parameters if way == "by value"}
    triples = [{f"{which}{part}" for part in DATE_RANGES} for which in ("", "first_", "second_")]
    return set().union(*(triple for triple in triples if triple <= names))


def record():
    """A record of some kind, now and then cut short or of no kind at all."""
    code = pick([0, 1, 2, 3]) if chance() < 0.9 else 7
    dates = [date_part(part) for part in (*DATE_RANGES, *DATE_RANGES)]
    one = pick([
        struct.pack("<BddI", 1, number(), number(), count()),
        struct.pack("<BdddB", 2, number(), number(), number(), code),
        struct.pack("<BIdddd", 3, count(), number(), number(), number(), number()),
        struct.pack("<BdddIB", 4, number(), number(), number(), count(), code),
        struct.pack("<BdddIHBBHBBB", 5, number(), number(), number(), count(), *dates, code),
    ])
    return one if chance() < 0.95 else pick([one[:-1], b"\6" + one[1:], b""])


def pool():
    """Loans end to end, now and then too many of them, or one that is hostile or no loan at all."""
    loans = [struct.pack("<BddI", 1, 1000.0, 0.05, 12)] * (pick([1, 2, 3]) if chance() < 0.9 else 65)
    if chance() < 0.3:
        loans[pick(range(len(loans)))] = pick([struct.pack("<BddI", 1, number(), number(), count()), record()])
    return b"".join(loans)


def numbers(length):
    """Rising numbers, as the times of a curve's knots; now and then one of them is hostile."""
    hostile = -1 if chance() < 0.9 or length == 0 else pick(range(length))
    return [pick(HOSTILE_NUMBERS) if i == hostile else 0.25 * (i + 1) for i in range(length)]


def argument(name, item, way, extent, usual):
    """What is handed over for a parameter: a number, or an array. Lists of one call mostly have the usual length."""
    if item == "uint8_t" and way == "to read":
        values = pool() if name == "records" else record()
    elif extent == "a list":
        values = numbers(usual if chance() < 0.95 else pick([0, 4, 5, 12, 121, 1201, 2402]))
        values = values if item == "double" else [count() for _ in values]
    elif way == "by value":
        return number() if item == "double" else count()
    elif item == "uint8_t":
        return (ctypes.c_uint8 * int(extent)).from_buffer_copy(any_bytes(int(extent)))
    else:
        values = [number() if item == "double" else count() % 256 for _ in range(int(extent))]
    return (C_TYPES[item] * len(values))(*values)


def date_argument(name):
    """As an argument a date's number can be wider than a record has bytes for."""
    return date_part(name) if chance() < 0.98 else pick([256, 65536, 2 ** 32 - 1])


def flat(arguments, parameters):
    """The arguments as C takes them: after a list, its count."""
    for given, (_, _, _, extent) in zip(arguments, parameters):
        yield given
        if extent == "a list":
            yield len(given)


def faults(function, parameters, declared):
    """What a function does that the header does not say."""
    seen, dates = set(), dates_of(parameters)
    for _ in range(CALLS):
        usual = pick([1, 2, 5, 15]) if chance() < 0.9 else pick([0, 121])
        arguments = [date_argument(parameter[0]) if parameter[0] in dates else argument(*parameter, usual) for parameter in parameters]
        lent = [one for one, (_, _, way, _) in zip(arguments, parameters) if way == "to write"]
        before = [bytes(one) for one in lent]
        result = function(*flat(arguments, parameters))
        refused, place = result & 0xFFFF_FFFF, result >> 32
        if result == 0:
            continue
        seen.add(refused)
        if [bytes(one) for one in lent] != before:
            yield f"refusal {refused} touches lent memory"
        if place > 1 and place >= max(len(one) for one in arguments if isinstance(one, ctypes.Array)):
            yield f"refusal {refused} stands at {place}, where nothing was lent"
    if seen != declared:
        yield f"refuses {sorted(seen)} where the header says {sorted(declared)}"


def main(library):
    text = (header.ROOT / "include" / "senyolanda.h").read_text()
    declared = header.refusals_in(text)
    loaded = ctypes.CDLL(str(pathlib.Path(library).resolve()))
    wrong = []
    functions = header.functions_of_header(text)
    for name, (_, parameters) in functions.items():
        function = getattr(loaded, name)
        function.restype = ctypes.c_uint64
        function.argtypes = [
            kind for _, item, way, extent in parameters
            for kind in [C_TYPES[item] if way == "by value" else ctypes.POINTER(C_TYPES[item])]
            + [ctypes.c_size_t] * (extent == "a list")]
        wrong += [f"{name} {fault}" for fault in dict.fromkeys(faults(function, parameters, declared[name]))]
    if wrong:
        sys.exit("\n".join(f"refusals: {one}" for one in wrong))
    print(f"refusals: {len(functions)} functions refuse what the header says, and touch nothing then")


if __name__ == "__main__":
    main(sys.argv[1])
