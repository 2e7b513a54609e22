/* What the comparisons of a query leave. */
#include "bounds.h"

SQLITE_EXTENSION_INIT3

struct bounds bounds_all(void)
{
    return (struct bounds){0, UINT64_MAX, false};
}

static void at_least(struct bounds *bounds, uint64_t low)
{
    if (low > bounds->low)
        bounds->low = low;
    bounds->is_none = bounds->is_none || bounds->low > bounds->high;
}

static void at_most(struct bounds *bounds, uint64_t high)
{
    if (high < bounds->high)
        bounds->high = high;
    bounds->is_none = bounds->is_none || bounds->low > bounds->high;
}

/* A comparison with a number of which `floor` is the whole part, and `is_whole` whether that is all of it. */
static void take_number(struct bounds *bounds, char comparison, bool or_equal, uint64_t floor, bool is_whole)
{
    if (comparison == '=') {
        bounds->is_none = bounds->is_none || !is_whole;
        at_least(bounds, floor);
        at_most(bounds, floor);
    } else if (comparison == '>') {
        if (or_equal && is_whole)
            at_least(bounds, floor);
        else if (floor == UINT64_MAX)
            bounds->is_none = true;
        else
            at_least(bounds, floor + 1);
    } else if (or_equal || !is_whole) {
        at_most(bounds, floor);
    } else if (floor == 0) {
        bounds->is_none = true;
    } else {
        at_most(bounds, floor - 1);
    }
}

/* A comparison with something below 0. */
static void take_below(struct bounds *bounds, char comparison)
{
    bounds->is_none = bounds->is_none || comparison != '>';
}

static void take_integer(struct bounds *bounds, char comparison, bool or_equal, sqlite3_int64 with)
{
    if (with < 0)
        take_below(bounds, comparison);
    else
        take_number(bounds, comparison, or_equal, (uint64_t)with, true);
}

static void take_real(struct bounds *bounds, char comparison, bool or_equal, double with)
{
    const double end = 18446744073709551616.0;
    if (with < 0)
        take_below(bounds, comparison);
    else if (with >= end)
        bounds->is_none = bounds->is_none || comparison != '<';
    else
        take_number(bounds, comparison, or_equal, (uint64_t)with, (double)(uint64_t)with == with);
}

void bounds_take(struct bounds *bounds, char comparison, bool or_equal, sqlite3_value *with)
{
    if (sqlite3_value_type(with) == SQLITE_NULL) {
        bounds->is_none = true; /* nothing is equal to null, above it or below it */
        return;
    }
    switch (sqlite3_value_numeric_type(with)) {
    case SQLITE_INTEGER: take_integer(bounds, comparison, or_equal, sqlite3_value_int64(with)); break;
    case SQLITE_FLOAT: take_real(bounds, comparison, or_equal, sqlite3_value_double(with)); break;
    default: break;
    }
}
