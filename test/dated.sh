#!/bin/sh
# The functions over a lent list of dated amounts, run: programs that lend lists of flows to `pv_of`, `z_spread_of` and `duration_convexity_of`, and
# the same flows as two lists to the functions over two, on the interpreter and compiled. What they should write is worked out below, by
# document 01's steps in Python's own floats. Few flows, many as one list and many as two are three programs, since the interpreter ends a run
# after so many steps.
set -eu
cd "$(dirname "$0")/.."
room=$(mktemp -d)
trap 'rm -rf "$room"' EXIT
mkdir "$room/crates"
for crate in spread_analytics $(sed -n 's/^spread_analytics://p' crates.txt); do
    mkdir "$room/crates/$crate"
    for part in src specs proofs; do
        [ ! -d "crates/$crate/$part" ] || cp -R "crates/$crate/$part" "$room/crates/$crate/"
    done
    grep "^$crate:" crates.txt >>"$room/crates.txt"
done
for program in few many many_lists; do
    echo "$program: spread_analytics curves refusals numbers" >>"$room/crates.txt"
done

cat >"$room/asking.rt" <<'END'
// Flows as one list of dated amounts and as two lists, over a curve: for each function a line for either.
use numbers::sizes::infinity;
use refusals::Refusal;
use spread_analytics::dated::CashFlow;
use spread_analytics::spread::{Sensitivity, Spread};
use spread_analytics::units::BasisPoints;
use std::io;

fn say_refused(out: &impl Print, refusal: Refusal) -> io::Result<()> {
    println!(out; " {refusal}")
}

fn say_worth(out: &impl Print, answer: Result<f64, Refusal>) -> io::Result<()> {
    print!(out; "worth")?;
    match answer {
        Err(refusal) => say_refused(out, refusal),
        Ok(worth) => println!(out; " {:016x}", worth.to_bits()),
    }
}

fn say_spread(out: &impl Print, answer: Result<Spread, Refusal>) -> io::Result<()> {
    print!(out; "spread")?;
    match answer {
        Err(refusal) => say_refused(out, refusal),
        Ok(Spread::Found(points)) => println!(out; " found {:016x}", points.0.to_bits()),
        Ok(Spread::NoSignChange(points)) => println!(out; " end {:016x}", points.0.to_bits()),
    }
}

fn say_sensitivity(out: &impl Print, answer: Result<Sensitivity, Refusal>) -> io::Result<()> {
    print!(out; "sensitivity")?;
    match answer {
        Err(refusal) => say_refused(out, refusal),
        Ok(s) => println!(out; " {:016x} {:016x}", s.duration.to_bits(), s.convexity.to_bits()),
    }
}

fn ask(
    out: &impl Print,
    flows: &[CashFlow],
    tenors: &[f64],
    rates: &[f64],
    points: f64,
    market: f64,
    dated: bool,
    lists: bool,
) -> io::Result<()> {
    let mut times = [0.0; 1201];
    let mut amounts = [0.0; 1201];
    let n = flows.len();
    let mut i: usize = 0;
    while i < n {
        times[i] = flows[i].time;
        amounts[i] = flows[i].amount;
        i += 1;
    }
    let points = BasisPoints(points);
    if dated {
        say_worth(out, spread_analytics::dated::pv_of(flows, tenors, rates, points))?;
    }
    if lists {
        say_worth(out, spread_analytics::spread::pv_cash_flows(&times[..n], &amounts[..n], tenors, rates, points))?;
    }
    if dated {
        say_spread(out, spread_analytics::dated::z_spread_of(flows, tenors, rates, market))?;
    }
    if lists {
        say_spread(out, spread_analytics::spread::z_spread(&times[..n], &amounts[..n], tenors, rates, market))?;
    }
    if dated {
        say_sensitivity(out, spread_analytics::dated::duration_convexity_of(flows, tenors, rates, points))?;
    }
    if lists {
        say_sensitivity(out, spread_analytics::spread::duration_convexity(&times[..n], &amounts[..n], tenors, rates, points))?;
    }
    Ok(())
}

fn many(
    out: &impl Print,
    count: usize,
    tenors: &[f64],
    rates: &[f64],
    points: f64,
    market: f64,
    dated: bool,
    lists: bool,
) -> io::Result<()> {
    let mut flows = [CashFlow { time: 0.0, amount: 0.0 }; 1201];
    let mut month: u32 = 0;
    let mut i: usize = 0;
    while i < 1201 {
        month += 1;
        flows[i] = CashFlow {
            time: month as f64 / 12.0,
            amount: month as f64,
        };
        i += 1;
    }
    ask(out, &flows[..count], tenors, rates, points, market, dated, lists)
}

fn main(rt: HostRuntime) -> io::Result<()> {
END

cases=$(python3 - "$room" <<'END'
import math
import pathlib
import struct
import sys

INF, NAN = float("inf"), float("nan")
COEFFICIENTS = [1 / math.factorial(k) for k in range(14)]


def exp(x):
    if x > 709:
        return INF
    if x < -708:
        return 0.0
    k = math.copysign(math.floor(abs(x * 1.4426950408889634) + 0.5), x)
    r = (x - k * 6.93147180369123816490e-01) - k * 1.90821492927058770002e-10
    total = COEFFICIENTS[13]
    for c in reversed(COEFFICIENTS[:13]):
        total = total * r + c
    return total * 2.0 ** k


def rate(tenors, rates, t):
    if t <= tenors[0]:
        return rates[0]
    if tenors[-1] <= t:
        return rates[-1]
    i = next(i for i in range(len(tenors) - 1) if t < tenors[i + 1])
    return rates[i] + (rates[i + 1] - rates[i]) * (t - tenors[i]) / (tenors[i + 1] - tenors[i])


def added(flows, tenors, rates, points, weight=lambda t, a: a):
    total = 0.0
    for t, a in flows:
        total += weight(t, a) * exp(-(rate(tenors, rates, t) + points / 10000) * t)
    return total


def refusal(flows, tenors, rates, market=0.0):
    """The lowest line that applies and its first place, or None."""
    if len(tenors) != len(rates):
        return 4, 0
    if not 0 < len(tenors) <= 120:
        return 5, 0
    for i, (t, r) in enumerate(zip(tenors, rates)):
        if not (math.isfinite(t) and math.isfinite(r) and t >= 0 and (i == 0 or tenors[i - 1] < t)):
            return 6, i
    if len(flows) > 1200:
        return 7, 0
    for i, (t, a) in enumerate(flows):
        if not math.isfinite(t):
            return 7, i
    if not math.isfinite(market):
        return 9, 0
    for i, (t, a) in enumerate(flows):
        if not math.isfinite(a):
            return 9, i
    return None


def bits(*xs):
    return "".join(" %016x" % struct.unpack("<Q", struct.pack("<d", x)) for x in xs)


def spread(flows, tenors, rates, market):
    def miss(points):
        return added(flows, tenors, rates, points) - market

    low, high = -500.0, 2000.0
    if miss(low) * miss(high) > 0:
        return " end" + bits(low if abs(miss(low)) < abs(miss(high)) else high)
    for _ in range(100):
        middle = (low + high) / 2
        if abs(high - low) < 1e-8:
            break
        if miss(low) * miss(middle) <= 0:
            high = middle
        else:
            low = middle
    return " found" + bits((low + high) / 2)


def sensitivity(flows, tenors, rates, points):
    total = added(flows, tenors, rates, points)
    if abs(total) < 1e-12:
        return bits(0.0, 0.0)
    return bits(
        added(flows, tenors, rates, points, lambda t, a: t * a) / total,
        added(flows, tenors, rates, points, lambda t, a: t * t * a) / total,
    )


def lines(flows, tenors, rates, points, market, forms=2):
    """What the program should write: for each function a line for the flows and one for their two lists."""
    curve = (flows, tenors, rates)
    for word, priced, answer in (
        ("worth", 0.0, lambda: bits(added(*curve, points))),
        ("spread", market, lambda: spread(*curve, market)),
        ("sensitivity", 0.0, lambda: sensitivity(*curve, points)),
    ):
        refused = refusal(*curve, priced)
        line = word + (" refused %d at %d" % refused if refused else answer()) + "\n"
        yield line * forms


def text(x):
    return "infinity()" if x == INF else "infinity() - infinity()" if x != x else repr(x)


def texts(xs):
    return "&[" + ", ".join(map(text, xs)) + "]"


CURVE = [0.5, 1.0, 2.0, 5.0], [0.031, 0.0275, 0.04, 0.0385]
BOND = [(0.25, 2.5), (1.0, 2.5), (1.75, 2.5), (3.0, 2.5), (7.5, 102.5)]
FEW = [
    (BOND, [1.0], [0.0], 0.0, 100.0),
    (BOND, *CURVE, 0.0, 95.0),
    (BOND, *CURVE, 123.25, 87.5),
    (BOND, *CURVE, -75.0, 1000.0),
    (BOND, *CURVE, 10.0, 0.0),
    ([(1.0, 1.0), (1.0, -1.0)], *CURVE, 0.0, 1.0),
    ([(2.0, 50.0)], *CURVE, 25.0, 45.0),
    ([], *CURVE, 0.0, 1.0),
    (BOND, [1.0, 2.0], [0.03], 0.0, 100.0),
    (BOND, [], [], 0.0, 100.0),
    (BOND, [1.0, 1.0], [0.03, 0.03], 0.0, 100.0),
    (BOND, [1.0, 2.0], [0.03, NAN], 0.0, 100.0),
    (BOND[:2] + [(INF, 1.0)] + BOND, *CURVE, 0.0, 100.0),
    (BOND[:3] + [(1.0, NAN)] + BOND, *CURVE, 0.0, 100.0),
    ([(1.0, INF)] + BOND + [(NAN, 1.0)], *CURVE, 0.0, 100.0),
    (BOND, *CURVE, 0.0, INF),
]
# so many flows a month apart
MANY = [
    (1200, *CURVE, 40.0, 0.0),
    (1201, *CURVE, 40.0, 60000.0),
    (1201, [2.0, 1.0], [0.03, 0.03], 40.0, 60000.0),
    (1201, [1.0, 2.0], [0.03], 40.0, 60000.0),
]

def few(flows, *asked):
    dated = ", ".join("CashFlow { time: %s, amount: %s }" % (text(t), text(a)) for t, a in flows)
    return "    ask(&rt, &[%s], %s, %s, %s, %s, true, true)?;\n" % (dated, *map(texts, asked[:2]), *map(text, asked[2:])), lines(flows, *asked)


def many(forms, count, *asked):
    call = "    many(&rt, %d, %s, %s, %s, %s, %s)?;\n" % (count, *map(texts, asked[:2]), *map(text, asked[2:]), forms)
    return call, lines([((i + 1) / 12.0, i + 1.0) for i in range(count)], *asked, forms=1)


def many_dated(*asked):
    return many("true, false", *asked)


def many_lists(*asked):
    return many("false, true", *asked)


room = pathlib.Path(sys.argv[1])
for name, case, cases in ("few", few, FEW), ("many", many_dated, MANY), ("many_lists", many_lists, MANY):
    program = room / "crates" / name
    (program / "src").mkdir(parents=True)
    (program / "cases").mkdir()
    (program / "cases" / name).write_text("")
    with open(program / "src/main.rt", "w") as main, open(program / "cases" / f"{name}.stdout", "w") as wanted:
        main.write((room / "asking.rt").read_text())
        for asked in cases:
            call, answers = case(*asked)
            main.write(call)
            wanted.writelines(answers)
        main.write("    Ok(())\n}\n")
print(len(FEW) + len(MANY))
END
)
for program in few many many_lists; do
    { (cd "$room/crates/$program" && rt try --cases cases) && grep -q 'runners=2 output=expected' "$room/said"; } >"$room/said" 2>&1 || {
        cat "$room/said" >&2
        echo "dated: the functions over dated flows gave something else" >&2
        exit 1
    }
done
echo "dated: $cases lists of dated flows over a curve gave what their two lists give and what the steps give, on the interpreter and compiled"
