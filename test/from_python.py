#!/usr/bin/env python3
"""from_python.py LIBRARY: the shared library as a Python program calls it, by ctypes. Loans are opened, drawn in portions, with year-end
totals too, listed and held to document 01's figures; interest-only, balloon and adjustable loans are held to rows worked out here; curves
are looked up one time by one and as a list, and held to a walk from knot to knot; dates are held to Python's own calendar, and dated swaps
to sums over their periods; refusals give number and place and leave lent memory alone."""
import calendar
import ctypes
import datetime
import random
import struct
import sys
from ctypes import POINTER, byref, c_double, c_size_t, c_uint8, c_uint32, c_uint64

ROW = 5
YEAR = 4
LOAN_BYTES = 21
LISTING_BYTES = 96000
COUNTS = c_uint32 * 2
AMOUNTS = c_double * 3
BYTES = POINTER(c_uint8), c_size_t
NUMBERS = POINTER(c_double), c_size_t
NUMBER, COUNT = POINTER(c_double), POINTER(c_uint32)

library = ctypes.CDLL(sys.argv[1])


class Refused(Exception):
    """A refusal: its number and its place."""


def function(name, *parameters):
    """The library's function of that name; what it refuses is raised."""
    call = getattr(library, name)
    call.argtypes, call.restype = parameters, c_uint64

    def accepted(*arguments):
        result = call(*arguments)
        if result != 0:
            raise Refused(result & 0xFFFF_FFFF, result >> 32)

    return accepted


write_loan = function("senyolanda_write_loan", c_double, c_double, c_uint32, POINTER(c_uint8))
open_ = function("senyolanda_open", *BYTES, COUNT, NUMBER)
open_with_payment = function("senyolanda_open_with_payment", *BYTES, c_double, COUNT, NUMBER)
draw = function("senyolanda_draw", COUNT, NUMBER, *NUMBERS, COUNT, COUNT)
draw_with_years = function("senyolanda_draw_with_years", COUNT, NUMBER, *NUMBERS, *NUMBERS, COUNT, COUNT)
look_up_year = function("senyolanda_look_up_year", COUNT, NUMBER, *NUMBERS, c_uint32, NUMBER)
look_up_balloon_year = function("senyolanda_look_up_balloon_year", c_uint32, COUNT, NUMBER, *NUMBERS, c_uint32, NUMBER)
KINDS = {kind: (
    function(f"senyolanda_open_{kind}", *BYTES, *own, COUNT, NUMBER),
    function(f"senyolanda_draw_{kind}", *own, COUNT, NUMBER, *NUMBERS, COUNT, COUNT),
    function(f"senyolanda_draw_{kind}_with_years", *own, COUNT, NUMBER, *NUMBERS, *NUMBERS, COUNT, COUNT),
    function(f"senyolanda_next_{kind}_row", *own, COUNT, NUMBER, POINTER(c_uint8), COUNT, COUNT),
) for kind, own in {
    "interest_only": [c_uint32], "balloon": [c_uint32], "adjustable": [c_double, c_double, c_double, *NUMBERS]}.items()}
OPEN_WITH_PAYMENT = {kind: function(f"senyolanda_open_{kind}_with_payment", *BYTES, c_uint32, c_double, COUNT, NUMBER)
                     for kind in ("interest_only", "balloon")}
CURVE = *NUMBERS, *NUMBERS
yield_at = function("senyolanda_linear_interpolate", *CURVE, c_double, NUMBER)
yield_at_each = function("senyolanda_linear_interpolate_each", *CURVE, *NUMBERS)
zero_rate_at = function("senyolanda_discount_curve_rate", *CURVE, c_double, NUMBER)
zero_rate_at_each = function("senyolanda_discount_curve_rate_each", *CURVE, *NUMBERS)
spread_rate_at = function("senyolanda_zero_curve_rate", *CURVE, c_double, NUMBER)
spread_rate_at_each = function("senyolanda_zero_curve_rate_each", *CURVE, *NUMBERS)
pool_totals = function("senyolanda_pool_totals", *BYTES, NUMBER)
listing = function("senyolanda_listing", *BYTES, POINTER(c_uint8), COUNT)
DATE = [c_uint32] * 3
day_number = function("senyolanda_day_number", *DATE, COUNT)
date_of_number = function("senyolanda_date_of_number", c_uint32, COUNT)
months_later = function("senyolanda_months_later", *DATE, c_uint32, COUNT)
actual_days = function("senyolanda_actual_days", *DATE, *DATE, COUNT)
days_30_360 = function("senyolanda_days_30_360", *DATE, *DATE, COUNT)
dated_fraction = function("senyolanda_dated_fraction", c_uint32, *DATE, *DATE, NUMBER)
write_dated_swap = function(
    "senyolanda_write_dated_swap", c_double, c_double, c_double, c_uint32, *DATE, *DATE, c_uint32, POINTER(c_uint8))
read_dated_swap = function("senyolanda_read_dated_swap", *BYTES, NUMBER, NUMBER, NUMBER, COUNT, COUNT, COUNT, COUNT)
value_dated_swap = function("senyolanda_value_dated_swap", *BYTES, *CURVE, c_uint32, NUMBER)
factor_at = function("senyolanda_discount_curve_factor", *CURVE, c_double, NUMBER)


class Loan:
    """A loan in hand, from its terms and, where one is given, its payment: its counts and its amounts."""

    def __init__(self, principal, rate, term, given=None):
        record = record_of(principal, rate, term)
        self.state = COUNTS(), AMOUNTS()
        if given is None:
            open_(record, len(record), *self.state)
        else:
            open_with_payment(record, len(record), given, *self.state)

    def draw(self, room):
        """The rows written into the room, and how many are owed after them."""
        written, owed = c_uint32(), c_uint32()
        draw(*self.state, room, len(room), byref(written), byref(owed))
        return written.value, owed.value

    def draw_with_years(self, room, years):
        """The same, with the rows entered into their years' lines."""
        written, owed = c_uint32(), c_uint32()
        draw_with_years(*self.state, room, len(room), years, len(years), byref(written), byref(owed))
        return written.value, owed.value

    def year(self, years, year):
        """The line of a year."""
        line = (c_double * YEAR)()
        look_up_year(*self.state, years, len(years), year, line)
        return line[:]

    def rows(self, places):
        """All rows that are left, through room for so many numbers."""
        room, rows, owed = (c_double * places)(), [], 1
        while owed > 0:
            written, owed = self.draw(room)
            rows += [room[ROW * i:ROW * (i + 1)] for i in range(written)]
        return rows


class KindLoan(Loan):
    """A loan in hand of another kind, with what the kind has of its own: what its functions take before the counts."""

    def __init__(self, kind, own, principal, rate, term, given=None):
        record = record_of(principal, rate, term)
        self.kind, self.own, self.state = kind, own, (COUNTS(), AMOUNTS())
        if given is None:
            KINDS[kind][0](record, len(record), *own, *self.state)
        else:
            OPEN_WITH_PAYMENT[kind](record, len(record), *own, given, *self.state)

    def draw(self, room):
        written, owed = c_uint32(), c_uint32()
        KINDS[self.kind][1](*self.own, *self.state, room, len(room), byref(written), byref(owed))
        return written.value, owed.value

    def draw_with_years(self, room, years):
        written, owed = c_uint32(), c_uint32()
        KINDS[self.kind][2](*self.own, *self.state, room, len(room), years, len(years), byref(written), byref(owed))
        return written.value, owed.value

    def next_row(self):
        """The next row out of its record, and how many are owed after it."""
        record, written, owed = (c_uint8 * 37)(), c_uint32(), c_uint32()
        KINDS[self.kind][3](*self.own, *self.state, record, byref(written), byref(owed))
        return [float(x) for x in struct.unpack("<xIdddd", bytes(record))], owed.value

    def year(self, years, year):
        if self.kind != "balloon":
            return super().year(years, year)
        line = (c_double * YEAR)()
        look_up_balloon_year(*self.own, *self.state, years, len(years), year, line)
        return line[:]


def record_of(principal, rate, term):
    record = (c_uint8 * LOAN_BYTES)()
    write_loan(principal, rate, term, record)
    return record


def bits(rows):
    """Rows as a listing shows them: every NaN alike."""
    def digits(x):
        return struct.pack(">d", x).hex() if x == x else "7ff8000000000000"
    return [" ".join([f"{row[0]:.0f}", *map(digits, row[1:])]) for row in rows]


def listed(principal, rate, term, text, size):
    """The lines that a listing puts into the text."""
    record = record_of(principal, rate, term)
    listing(record, len(record), text, byref(size))
    return bytes(text[:size.value]).decode("ascii").splitlines()


def same(got, want):
    if got != want:
        sys.exit(f"from Python: got {got} and not {want}")


def refusal(call, *arguments):
    try:
        call(*arguments)
    except Refused as refused:
        return refused.args
    return None


for places in range(ROW, 3 * ROW + 1):
    same(bits(Loan(1200.0, 0.0, 3).rows(places)), [
        "1 4079000000000000 4079000000000000 0000000000000000 4089000000000000",
        "2 4079000000000000 4079000000000000 0000000000000000 4079000000000000",
        "3 4079000000000000 4079000000000000 0000000000000000 0000000000000000"])
    same(bits(Loan(1000.0, float("nan"), 2).rows(places)), [
        "1 7ff8000000000000 0000000000000000 7ff8000000000000 408f400000000000",
        "2 7ff8000000000000 408f400000000000 7ff8000000000000 0000000000000000"])
    same(bits(Loan(1000.0, 6.0, 2, given=100.0).rows(places)), [
        "1 4059000000000000 0000000000000000 407f400000000000 408f400000000000",
        "2 4097700000000000 408f400000000000 407f400000000000 0000000000000000"])

# A rate that 1 does not feel: the payment is equal parts, and the rows are those of the same payment given.
same([array[:] for array in Loan(1000.0, 1e-17, 2).state], [[2, 0], [1e-17, 500.0, 1000.0]])
same(bits(Loan(1000.0, 1e-17, 2).rows(ROW)), bits(Loan(1000.0, 1e-17, 2, given=500.0).rows(ROW)))

# Room for all but one number of a row is refused with 3; neither the room nor the loan is touched, and the next draw goes on from there.
loan, short = Loan(1200.0, 0.0, 3), (c_double * (ROW - 1))(*[1.5] * (ROW - 1))
same([array[:] for array in loan.state], [[3, 0], [0.0, 400.0, 1200.0]])
same(refusal(loan.draw, short), (3, 0))
same(short[:], [1.5] * (ROW - 1))
same([array[:] for array in loan.state], [[3, 0], [0.0, 400.0, 1200.0]])
same(loan.draw((c_double * ROW)()), (1, 2))
same([array[:] for array in loan.state], [[3, 1], [0.0, 400.0, 800.0]])

# A term of 0, a record that is no loan's, and none at all.
same(refusal(Loan, 1200.0, 0.0, 0), (2, 0))
same(refusal(Loan, -1.0, 0.0, 3), (1, 0))
same(refusal(open_, None, 0, *loan.state), (11, 0))

# Thirty months in any portions have the same lines, whatever these held before.
for places in range(ROW, 31 * ROW + 1):
    loan, room, years, owed = Loan(1200.0, 0.0, 30), (c_double * places)(), (c_double * (3 * YEAR))(*[1.5] * (3 * YEAR)), 30
    while owed > 0:
        written, owed = loan.draw_with_years(room, years)
    same([loan.year(years, year) for year in (1, 2, 3)], [[12, 0, 480, 720], [12, 0, 480, 240], [6, 0, 240, 0]])

# Only a year with a row that was drawn has a line to look up; a draw that is refused leaves the lines as they were.
loan, years = Loan(1200.0, 0.0, 30), (c_double * (3 * YEAR))(*[1.5] * (3 * YEAR))
same(refusal(loan.year, years, 1), (14, 0))
same(loan.draw_with_years((c_double * (12 * ROW))(), years), (12, 18))
for room, lines in ((short, years), ((c_double * ROW)(), (c_double * (3 * YEAR - 1))(*years[:-1]))):
    same(refusal(loan.draw_with_years, room, lines), (3, 0))
    same(lines[:3 * YEAR - 1], [12, 0, 480, 720] + [1.5] * (2 * YEAR - 1))
same(loan.year(years, 1), [12, 0, 480, 720])
same([refusal(loan.year, years, year) for year in (0, 2, 3, 4)], [(14, 0)] * 4)

# Interest-only, balloon and adjustable loans, by the rules of documents 01 and 02.
def level_payment(balance, rate, months):
    r, f = rate / 12, 1.0
    base, left = 1 + r, months
    while left > 0:
        f, left, base = f * base if left % 2 else f, left // 2, base * base
    return balance / months if f == 1 else balance * r * f / (f - 1)


def held(last, index, initial, cap, lifetime):
    """A year's rate: its index within the cap of the last year's rate, then not above the first rate and the lifetime cap."""
    return min(max(last - cap, min(index, last + cap)), initial + lifetime)


def rows_worked_out(balance, rate, payment, only, last, years):
    """Rows up to the last month: the first ones of interest alone, and a rate and a payment for each later year that is told of."""
    for month in range(1, last + 1):
        if month % 12 == 1 and month > 1 and years:
            rate, payment = years(month // 12 - 1, balance, rate)
        interest = balance * (rate / 12)
        principal, paid = min(max(payment - interest, 0.0), balance), payment
        if month <= only:
            principal, paid = 0.0, interest
        elif month == last:
            principal, paid = balance, balance + interest
        balance = balance - principal
        yield [float(month), paid, principal, interest, balance]


def drawn_every_way(open_kind, term, want):
    """Row by row, in some portions, and with lines, which are sums over each year's rows."""
    loan, rows = open_kind(), []
    while len(rows) < len(want):
        row, owed = loan.next_row()
        rows.append(row)
        same(owed, len(want) - len(rows))
    same(rows, want)
    for places in (ROW, 12 * ROW, 13 * ROW + 4, 1200 * ROW):
        same(open_kind().rows(places), want)
        loan, room, lines, owed = open_kind(), (c_double * places)(), (c_double * ((term + 11) // 12 * YEAR))(), 1
        while owed > 0:
            written, owed = loan.draw_with_years(room, lines)
        for year in range((len(want) + 11) // 12):
            months = want[12 * year:12 * year + 12]
            line = [0.0, 0.0, 0.0, 0.0]
            for row in months:
                line = [line[0] + 1, line[1] + row[3], line[2] + row[2], row[4]]
            same(loan.year(lines, year + 1), line)
        same(refusal(loan.year, lines, (len(want) + 11) // 12 + 1), (14, 0))


for term in (2, 12, 13, 30, 120):
    for months in {1, term // 2, term - 1}:
        drawn_every_way(lambda: KindLoan("interest_only", [months], 250000.0, 0.065, term), term, list(rows_worked_out(
            250000.0, 0.065, level_payment(250000.0, 0.065, term - months), months, term, None)))
        drawn_every_way(lambda: KindLoan("balloon", [months], 250000.0, 0.065, term), term, list(rows_worked_out(
            250000.0, 0.065, level_payment(250000.0, 0.065, term), 0, months, None)))
    initial, cap, lifetime, index = 0.05, 0.0125, 0.03, [0.07, 0.09, 0.11, 0.01, 0.02, 0.045, 0.046, 0.2, 0.3]
    own = [initial, cap, lifetime, (c_double * len(index))(*index), len(index)]

    def in_year(entry, balance, last):
        rate = held(last, index[entry], initial, cap, lifetime)
        return rate, level_payment(balance, rate, term - 12 * (entry + 1))

    drawn_every_way(lambda: KindLoan("adjustable", own, 250000.0, float("nan"), term), term, list(rows_worked_out(
        250000.0, initial, level_payment(250000.0, initial, term), 0, term, in_year)))

# What does not fit a kind is 16: at an opening, at a draw, and of a finished loan; the entries that a term reads stand at their index.
same([array[:] for array in KindLoan("interest_only", [1], 1000.0, 6.0, 3, given=7.0).state], [[3, 0], [6.0, 7.0, 1000.0]])
same([array[:] for array in KindLoan("balloon", [3], 1000.0, 6.0, 3, given=7.0).state], [[3, 0], [6.0, 7.0, 1000.0]])
for kind, bad in (("interest_only", (0, 3, 4)), ("balloon", (0, 4, 2**32 - 1))):
    same([refusal(KindLoan, kind, [months], 1000.0, 6.0, 3) for months in bad], [(16, 0)] * 3)
loan, room = KindLoan("balloon", [2], 1000.0, 6.0, 3), (c_double * (3 * ROW))(*[1.5] * (3 * ROW))
loan.own = [4]
same(refusal(loan.draw, room), (16, 0))
same((room[:], [array[:] for array in loan.state]), ([1.5] * (3 * ROW), [[3, 0], [6.0, level_payment(1000.0, 6.0, 3), 1000.0]]))
loan.own = [2]
same(loan.draw(room), (2, 0))
same(loan.draw(short), (0, 0))
loan.own = [1]
same(refusal(loan.draw, room), (10, 0))
for at in range(4):
    entries = (c_double * 4)(*(float("nan") if i >= at else 0.05 for i in range(4)))
    terms = [0.05, 0.01, 0.02, entries, 4]
    same(refusal(KindLoan, "adjustable", terms, 1000.0, 0.0, 36), (16, at) if at < 2 else None)
    same(refusal(KindLoan, "adjustable", [*terms[:4], at], 1000.0, 0.0, 48), (16, 0) if at < 3 else None)
loan = KindLoan("adjustable", terms, 1000.0, 0.0, 36)
same(len(loan.rows(5 * ROW)), 36)
loan.own = [0.05, -0.01, *terms[2:]]
same(refusal(loan.draw, short), (16, 0))

# A listing is the same rows between its header and its footer; the bytes behind it stay, and a refusal leaves all of them.
text, size = (c_uint8 * LISTING_BYTES)(*[7] * LISTING_BYTES), c_uint32()
same(refusal(listed, 1200.0, 0.0, 1201, text, size), (2, 0))
same((bytes(text), size.value), (b"\7" * LISTING_BYTES, 0))
same(listed(1000.0, 6.0, 2, text, size), [
    "month payment principal interest balance", *bits(Loan(1000.0, 6.0, 2).rows(ROW)), "rows 2 left 0"])
same(bytes(text[size.value:]), b"\7" * (LISTING_BYTES - size.value))

# A pool whose third loan owes less than nothing: the place is its index.
pool = b"".join(map(bytes, [record_of(1200.0, 0.0, 3), record_of(1000.0, 6.0, 2), record_of(-1.0, 0.0, 3)]))
totals = (c_double * 3)(1.5, 1.5, 1.5)
same(refusal(pool_totals, (c_uint8 * len(pool))(*pool), len(pool), totals), (1, 2))
same(totals[:], [1.5] * 3)

# Curves of 1 to 120 knots, asked at each knot, between it and the next, and outside, by a walk from knot to knot and by the library.
def along_yields(t0, t1, r0, r1, t):
    return r0 + (t - t0) / (t1 - t0) * (r1 - r0)


def along_zeros(t0, t1, r0, r1, t):
    w = (t - t0) / (t1 - t0)
    return r0 * (1 - w) + r1 * w


def along_rates(t0, t1, r0, r1, t):
    return r0 + (r1 - r0) * (t - t0) / (t1 - t0)


def walked(times, rates, starts, along, t):
    """Flat outside; the segment that ends at an inner knot serves it, or the one that starts there."""
    if t <= times[0]:
        return rates[0]
    if times[-1] <= t:
        return rates[-1]
    i = next(i for i in range(len(times) - 1) if (t < times[i + 1] if starts else t <= times[i + 1]))
    return along(times[i], times[i + 1], rates[i], rates[i + 1], t)


for knots in (1, 2, 3, 7, 8, 9, 10, 16, 17, 30, 64, 120):
    times, rates = [k * k / 7 for k in range(knots)], [0.01 * (k * 5 % 11) for k in range(knots)]
    curve = (c_double * knots)(*times), knots, (c_double * knots)(*rates), knots
    asked = [-1.0, times[-1] + 1, *times, *(t + 0.3 * (k + 1) / 7 for k, t in enumerate(times))]
    for at, at_each, starts, along in (
            (yield_at, yield_at_each, False, along_yields),
            (zero_rate_at, zero_rate_at_each, False, along_zeros),
            (spread_rate_at, spread_rate_at_each, True, along_rates)):
        want, room, got = [walked(times, rates, starts, along, t) for t in asked], (c_double * len(asked))(*asked), []
        for t in asked:
            number = c_double()
            at(*curve, t, byref(number))
            got.append(number.value)
        at_each(*curve, room, len(asked))
        same(got, want)
        same(room[:], want)

# Every day from 1900 to 2199: the number of 1 January 1900 is 2, and each gives its date back.
number, date, one_day = c_uint32(), (c_uint32 * 3)(), datetime.timedelta(days=1)
first_day, last_day = datetime.date(1900, 1, 1), datetime.date(2199, 12, 31)


def parts(day):
    return day.year, day.month, day.day


day, expected, ordinal = first_day, 2, first_day.toordinal()
while day <= last_day:
    day_number(*parts(day), number)
    date_of_number(expected, date)
    if number.value != expected or tuple(date) != parts(day) or day.toordinal() - ordinal != expected - 2:
        sys.exit(f"from Python: {day} has number {number.value} and not {expected}, or {expected} is {date[:]}")
    day, expected = day + one_day, expected + 1
same(expected, 109575)
for bad in ((1899, 12, 31), (2200, 1, 1), (1900, 2, 29), (2100, 2, 29), (2023, 2, 29), (2023, 4, 31), (2023, 0, 1), (2023, 13, 1), (2023, 1, 0),
            (2023, 1, 32), (2023, 257, 1), (2023, 1, 257), (65536 + 2023, 1, 1)):
    same(refusal(day_number, *bad, number), (15, 0))
same([refusal(date_of_number, bad, date) for bad in (0, 1, 109575, 2**32 - 1)], [(15, 0)] * 4)
same((number.value, tuple(date)), (109574, (2199, 12, 31)))


def cut(year, month, day):
    return year, month, min(day, calendar.monthrange(year, month)[1])


def months_on(first, months):
    """The same day so many months on, cut to the month's end."""
    at = first[0] * 12 + first[1] - 1 + months
    return cut(at // 12, at % 12 + 1, first[2])


def thirty_between(first, second):
    """30/360 as ISDA 2006 has it, 4.16 (f): D1 is 30 where it is 31; D2 is 30 where it is 31 and D1 is greater than 29."""
    (y1, m1, d1), (y2, m2, d2) = first, second
    d1 = 30 if d1 == 31 else d1
    d2 = 30 if d2 == 31 and d1 > 29 else d2
    return 360 * (y2 - y1) + 30 * (m2 - m1) + (d2 - d1)


def actual_between(first, second):
    return (datetime.date(*second) - datetime.date(*first)).days


def fraction_between(code, first, second):
    return thirty_between(first, second) / 360 if code == 2 else actual_between(first, second) / (360, 365)[code]


draw_number = random.Random(5)


def any_day():
    day = first_day + datetime.timedelta(days=draw_number.randrange(109573))
    return parts(day) if draw_number.random() < 0.5 else cut(day.year, day.month, draw_number.choice((28, 29, 30, 31)))


fraction = c_double()
for _ in range(20000):
    first, second = sorted((any_day(), any_day()))
    if first == second:
        same(refusal(actual_days, *first, *second, number), (15, 0))
        continue
    same(refusal(days_30_360, *second, *first, number), (15, 0))
    actual_days(*first, *second, number)
    same(number.value, actual_between(first, second))
    days_30_360(*first, *second, number)
    same(number.value, thirty_between(first, second))
    for code in range(3):
        dated_fraction(code, *first, *second, fraction)
        same(fraction.value, fraction_between(code, first, second))
    same(refusal(dated_fraction, 3, *second, *first, fraction), (11, 0))
    months = draw_number.randrange(400)
    if months_on(first, months)[0] <= 2199:
        months_later(*first, months, date)
        same(tuple(date), months_on(first, months))
    else:
        same(refusal(months_later, *first, months, date), (15, 0))


# Dated swaps over a curve of two knots: payments of each period's own days, the last one ending at the second date.
def periods(first, second, frequency):
    """Where each period begins and ends."""
    begin, count = first, 0
    while begin < second:
        count += 1
        at = first[0] * 12 + first[1] - 1 + count * 12 // frequency
        end = second if at // 12 > 2199 else min(cut(at // 12, at % 12 + 1, first[2]), second)
        yield begin, end
        begin = end


knots, zeros = (c_double * 2)(1.0, 30.0), (c_double * 2)(0.02, 0.04)
curve = knots, 2, zeros, 2


def factor(first, second):
    number = c_double()
    factor_at(*curve, actual_between(first, second) / 365, byref(number))
    return number.value


def dated_swap(notional, rate, tenor, frequency, first, second, code):
    record = (c_uint8 * 38)()
    write_dated_swap(notional, rate, tenor, frequency, *first, *second, code, record)
    return record


def worked_out(notional, rate, frequency, first, second, code):
    """The legs and the par rate."""
    fixed, floating, annuity, earlier = 0.0, 0.0, 0.0, 1.0
    for begin, end in periods(first, second, frequency):
        discount, part = factor(first, end), fraction_between(code, begin, end)
        if part != 0:
            fixed += notional * rate * part * discount
            floating += notional * ((earlier / discount - 1) / part) * part * discount
            annuity += discount * part
        earlier = discount
    last = factor(first, second)
    return fixed + notional * last, floating + notional * last, (1 - last) / annuity if annuity else float("inf")


valuation, swaps = (c_double * 6)(), 0
while swaps < 300:
    first, frequency, code = any_day(), draw_number.choice((1, 2, 3, 4, 6, 12)), draw_number.randrange(3)
    second = draw_number.choice((any_day(), months_on(first, draw_number.randrange(600)), (first[0], 12, 31), (2199, 12, 31)))
    if not first < second or second[0] > 2199 or (second[0] - first[0] + 1) * frequency > 1200:
        continue
    swaps += 1
    record = dated_swap(1e6, 0.03, draw_number.choice((float("nan"), 0.0, 5.0)), frequency, first, second, code)
    value_dated_swap(record, 38, *curve, 1, valuation)
    same(valuation[1:4], [*worked_out(1e6, 0.03, frequency, first, second, code)])
    same(valuation[0], valuation[1] - valuation[2])
    numbers, counts, dates = [c_double() for _ in range(3)], [c_uint32(), c_uint32()], [(c_uint32 * 3)(), (c_uint32 * 3)()]
    read_dated_swap(record, 38, *numbers, counts[0], *dates, counts[1])
    same((numbers[0].value, counts[0].value, tuple(dates[0]), tuple(dates[1]), counts[1].value), (1e6, frequency, first, second, code))

# 7 for 1,201 periods, but not where the frequency or a date is bad; a swap that is no record of its kind.
before = valuation[:]
for frequency, first, second, code, want in (
        (12, (1950, 1, 31), (2050, 2, 1), 2, 7), (5, (1950, 1, 31), (2050, 2, 1), 2, 8), (12, (1950, 2, 29), (2050, 3, 1), 2, 15),
        (2, (2023, 1, 31), (2023, 1, 31), 0, 15), (2, (2023, 1, 31), (2023, 1, 30), 0, 15), (0, (2023, 1, 31), (2023, 1, 30), 0, 8)):
    same(refusal(value_dated_swap, dated_swap(1e6, 0.03, 1.0, frequency, first, second, code), 38, *curve, 1, valuation), (want, 0))
same(refusal(value_dated_swap, dated_swap(1e6, 0.03, 1.0, 2, (2023, 1, 31), (2024, 1, 31), 0), 37, *curve, 1, valuation), (11, 0))
same(valuation[:], before)

print("from Python: loans of every kind drawn in portions, with their years' lines, and listed, curves looked up as a walk would, dates "
      "as Python's calendar has them, dated swaps, and refusals that touch nothing")
