// QuantLib's way of the jobs that it has, each under its job's name, over the same bonds, flows and curves. What a desk keeps
// at hand is built once: a bond's leg, a curve, the helpers of a bootstrap. It has no pools, and values and fits other things.
#include <ql/cashflows/cashflows.hpp>
#include <ql/instruments/bonds/amortizingfixedratebond.hpp>
#include <ql/instruments/bonds/fixedratebond.hpp>
#include <ql/math/interpolations/linearinterpolation.hpp>
#include <ql/quotes/simplequote.hpp>
#include <ql/settings.hpp>
#include <ql/termstructures/yield/bondhelpers.hpp>
#include <ql/termstructures/yield/piecewiseyieldcurve.hpp>
#include <ql/termstructures/yield/zerocurve.hpp>
#include <ql/time/calendars/nullcalendar.hpp>
#include <ql/time/daycounters/thirty360.hpp>

#include <algorithm>
#include <functional>
#include <string>
#include <vector>

using namespace QuantLib;

namespace {

using Numbers = std::vector<double>;

struct Job {
    std::string name;
    std::function<void(Numbers &)> work;
};

const Date today(15, January, 2026);

// Months are twelfths of a year, exactly.
const DayCounter year = Thirty360(Thirty360::BondBasis);

Date after(int months) { return today + Period(months, Months); }

double rate_at(double t) { return 0.02 + 0.03 * t / (t + 10.0); }

// Knots that cut thirty years evenly, with the first one's rate at time 0 too, since the curve is flat before it.
struct Knots {
    std::vector<Date> dates{today};
    Numbers times{0.0}, rates;

    explicit Knots(int count) {
        for (int k = 1; k <= count; k++) {
            dates.push_back(after(k * 360 / count));
            times.push_back(30.0 * k / count);
            rates.push_back(rate_at(times.back()));
        }
        rates.insert(rates.begin(), rates.front());
    }
};

Schedule dates_to(int months, Frequency frequency) {
    return MakeSchedule().from(today).to(after(months)).withFrequency(frequency).withCalendar(NullCalendar()).forwards();
}

Leg coupons_and_face(double face, int half_years) {
    return FixedRateBond(0, face, dates_to(6 * half_years, Semiannual), {0.05}, year).cashflows();
}

// ---- jobs ----

Job schedule_of(int months) {
    return {"schedule of " + std::to_string(months), [=](Numbers &room) {
                double rate = 0.065;
                Numbers balances = sinkingNotionals(Period(months, Months), Monthly, rate, 300000.0);
                room.clear();
                for (int month = 1; month <= months; month++) {
                    double interest = balances[month - 1] * rate / 12.0, principal = balances[month - 1] - balances[month];
                    room.insert(room.end(), {double(month), principal + interest, principal, interest, balances[month]});
                }
            }};
}

Job of_a_bond(const std::string &what, std::function<double(const Leg &)> number) {
    Leg leg = coupons_and_face(1000.0, 20);
    return {"bond " + what + " of 20 periods", [=](Numbers &room) { room.assign(1, number(leg)); }};
}

std::vector<Job> bonds() {
    double ytm = 0.043, market = 951.0;
    return {
        of_a_bond("price", [=](const Leg &leg) { return CashFlows::npv(leg, ytm, year, Compounded, Semiannual, false, today, today); }),
        of_a_bond("yield", [=](const Leg &leg) { return CashFlows::yield(leg, market, year, Compounded, Semiannual, false, today, today); }),
        of_a_bond("duration", [=](const Leg &leg) {
            return CashFlows::duration(leg, ytm, year, Compounded, Semiannual, Duration::Modified, false, today, today);
        }),
    };
}

// A par swap is worth par: a bond of its rate, that pays each year and once more at the end, has the price 100.
Job bootstrap(int count) {
    Knots knots(count);
    std::vector<ext::shared_ptr<RateHelper>> helpers;
    for (int k = 1; k <= count; k++)
        helpers.push_back(ext::make_shared<FixedRateBondHelper>(
            Handle<Quote>(ext::make_shared<SimpleQuote>(100.0)), 0, 100.0, dates_to(k * 360 / count, Annual),
            Numbers{rate_at(knots.times[k])}, year));
    return {"bootstrap of " + std::to_string(count) + " knots over 30 years", [=](Numbers &room) {
                PiecewiseYieldCurve<ZeroYield, Linear> curve(today, helpers, year);
                const Numbers &zeros = curve.data();
                room.assign(zeros.begin() + 1, zeros.end());
            }};
}

Job lookups(int count, const std::string &kind, std::function<double(double)> number) {
    const int asked = 64;
    return {std::to_string(asked) + " lookups at " + std::to_string(count) + " knots, " + kind, [=](Numbers &room) {
                room.clear();
                for (int k = 0; k < asked; k++) room.push_back(number(30.0 * (k * 37 % asked + 0.5) / asked));
            }};
}

std::vector<Job> curves(int count) {
    auto knots = std::make_shared<Knots>(count);
    auto lines = std::make_shared<LinearInterpolation>(knots->times.begin(), knots->times.end(), knots->rates.begin());
    auto curve = std::make_shared<ZeroCurve>(knots->dates, knots->rates, year);
    return {
        lookups(count, "yield curve", [knots, lines](double t) { return (*lines)(t); }),
        lookups(count, "discount curve", [curve](double t) { return curve->discount(t); }),
        lookups(count, "zero curve", [curve](double t) { return curve->zeroRate(t, Continuous).rate(); }),
    };
}

std::vector<Job> spreads() {
    Leg leg = coupons_and_face(100.0, 60);
    Knots knots(30);
    auto curve = ext::make_shared<ZeroCurve>(knots.dates, knots.rates, year);
    double spread = 0.0085;
    auto worth = [=] { return CashFlows::npv(leg, curve, spread, year, Continuous, NoFrequency, false, today, today); };
    double market = worth();
    return {
        {"pv of 60 flows", [=](Numbers &room) { room.assign(1, worth()); }},
        {"z_spread of 60 flows", [=](Numbers &room) {
             room.assign(1, 10000.0 * CashFlows::zSpread(leg, market, curve, year, Continuous, NoFrequency, false, today, today));
         }},
    };
}

std::vector<Job> made() {
    Settings::instance().evaluationDate() = today;
    std::vector<Job> jobs{schedule_of(1), schedule_of(360), schedule_of(1200), bootstrap(30), bootstrap(120)};
    for (const auto &more : {bonds(), curves(10), curves(30), curves(120), spreads()})
        jobs.insert(jobs.end(), more.begin(), more.end());
    return jobs;
}

const std::vector<Job> &jobs() {
    static const std::vector<Job> all = made();
    return all;
}

}

extern "C" std::size_t quantlib_jobs() { return jobs().size(); }

extern "C" const char *quantlib_name(std::size_t job) { return jobs()[job].name.c_str(); }

extern "C" void quantlib_run(std::size_t job, std::size_t times) {
    static Numbers room;
    for (std::size_t i = 0; i < times; i++) jobs()[job].work(room);
}

// How many numbers the job gives; as many of them as there are places are copied.
extern "C" std::size_t quantlib_answer(std::size_t job, double *places, std::size_t count) {
    Numbers room;
    jobs()[job].work(room);
    std::copy_n(room.begin(), std::min(count, room.size()), places);
    return room.size();
}
