#!/usr/bin/env python3
"""days.py LIBRARY: reads lines of two dates, the actual days and the 30/360 days between them, and holds the library to each: the two
counts, the difference of the day numbers, and the three fractions of a year. Lines that begin with # are words."""
import ctypes
import sys
from ctypes import POINTER, byref, c_double, c_uint32, c_uint64


def function(library, name, *parameters):
    call = getattr(library, name)
    call.argtypes, call.restype = parameters, c_uint64
    return call


def answers(library):
    """A function from two dates to what the library says of them."""
    count, number = c_uint32(), c_double()
    two = [c_uint32] * 6
    numbered = function(library, "senyolanda_day_number", *two[:3], POINTER(c_uint32))
    actual = function(library, "senyolanda_actual_days", *two, POINTER(c_uint32))
    thirty = function(library, "senyolanda_days_30_360", *two, POINTER(c_uint32))
    fraction = function(library, "senyolanda_dated_fraction", c_uint32, *two, POINTER(c_double))

    def value(answer, call, *arguments):
        result = call(*arguments, byref(answer))
        return answer.value if result == 0 else f"refused {result & 0xFFFF_FFFF} at {result >> 32}"

    def said(first, second):
        apart = value(count, numbered, *second), value(count, numbered, *first)
        return (value(count, actual, *first, *second), value(count, thirty, *first, *second), apart[0] - apart[1],
                *(value(number, fraction, code, *first, *second) for code in range(3)))

    return said


def main(path):
    said, lines = answers(ctypes.CDLL(path)), 0
    for line in sys.stdin:
        if line.startswith("#"):
            continue
        one, other, actual, thirty = line.split()
        first, second, actual, thirty = [*map(int, one.split("-"))], [*map(int, other.split("-"))], int(actual), int(thirty)
        got, want = said(first, second), (actual, thirty, actual, actual / 360, actual / 365, thirty / 360)
        if got != want:
            sys.exit(f"days: from {one} to {other} the library says {got} and not {want}")
        lines += 1
    if lines == 0:
        sys.exit("days: there is no line to hold the library to")
    print(lines)


if __name__ == "__main__":
    main(sys.argv[1])
