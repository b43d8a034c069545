/* Makes tables of next working days through line_next_days, for lists that are
   good and lists that are not and for too few, enough and more places; and
   asks line_compensation_date for dates of every kind.
   Use: calendar_test, without arguments. */
#include "line.h"
#include "same.h"
#include "unreadable.h"

#define MORE 400
/* What a place has before the call: no day. */
#define UNTOUCHED 999

static uint16_t days[MORE];

/* The answer with so many places; all those of the table have changed then and
   no other, or none where the call is refused. */
static void try_list(const char *what, const uint16_t *list, size_t count,
                     size_t places, uint8_t wanted)
{
    size_t i, table = wanted == 0 ? LINE_YEAR_DAYS : 0, right = 0;

    for (i = 0; i < MORE; i++)
        days[i] = UNTOUCHED;
    same(what, line_next_days(list, count, days, places), wanted);
    for (i = 0; i < MORE; i++)
        right += (days[i] != UNTOUCHED) == (i < table);
    same(what, (int64_t)right, MORE);
}

/* A list with 365, 366 and 400 places; the table of the last is left. */
static void try_places(const char *what, const uint16_t *list, size_t count)
{
    try_list(what, list, count, LINE_YEAR_DAYS - 1, 23);
    try_list(what, list, count, LINE_YEAR_DAYS, 0);
    try_list(what, list, count, MORE, 0);
}

static void same_days(const char *what, uint16_t first, uint16_t fifth,
                      uint16_t last_but_three, uint16_t last_but_two, uint16_t last)
{
    same(what, days[0], first);
    same(what, days[4], fifth);
    same(what, days[362], last_but_three);
    same(what, days[363], last_but_two);
    same(what, days[365], last);
}

/* The unworked days of 2028: day 1 is a Saturday; 1 January is one of them,
   the other holidays are the days 6, 122, 286 and 360. */
static size_t unworked_2028(uint16_t *list)
{
    static const uint16_t holidays[] = { 6, 122, 286, 360 };
    size_t count = 0, i;
    uint16_t day;

    for (day = 1; day <= LINE_YEAR_DAYS; day++) {
        int unworked = day % 7 == 1 || day % 7 == 2;
        for (i = 0; i < COUNT(holidays); i++)
            unworked |= day == holidays[i];
        if (unworked)
            list[count++] = day;
    }
    return count;
}

static void try_good_lists(void)
{
    uint16_t list[LINE_YEAR_DAYS];
    size_t count = unworked_2028(list), i;

    same("unworked days of 2028", (int64_t)count, 110);
    try_places("2028", list, count);
    same_days("2028", 3, 7, 364, 0, 0);

    try_places("no day", list, 0);
    same_days("no day", 2, 6, 364, 365, 0);

    for (i = 0; i < LINE_YEAR_DAYS; i++)
        list[i] = (uint16_t)(i + 1);
    try_places("all days", list, LINE_YEAR_DAYS);
    for (i = 0; i < LINE_YEAR_DAYS; i++)
        same("all days", days[i], 0);
}

static void try_bad_list(const char *what, const uint16_t *list, size_t count)
{
    try_list(what, list, count, LINE_YEAR_DAYS - 1, 40);
    try_list(what, list, count, LINE_YEAR_DAYS, 40);
    try_list(what, list, count, MORE, 40);
}

static void try_bad_lists(void)
{
    static const uint16_t twice[] = { 1, 1 }, back[] = { 2, 1 },
                          past[] = { 366, 367 }, zero[] = { 0 },
                          wide[] = { 65535 };

    try_bad_list("a day twice", twice, COUNT(twice));
    try_bad_list("not ascending", back, COUNT(back));
    try_bad_list("past the year", past, COUNT(past));
    try_bad_list("day 0", zero, COUNT(zero));
    try_bad_list("day 65535", wide, COUNT(wide));
}

/* What is read: of a list no more than its first bad day, and no place where
   the call is refused. */
static void try_reading(void)
{
    uint16_t *list = (uint16_t *)(void *)before_unreadable(367 * sizeof *list);
    uint16_t *nowhere = (uint16_t *)(void *)unreadable();
    size_t i;

    for (i = 0; i < 367; i++)
        list[i] = (uint16_t)(i + 1);
    try_list("a list of 10000 days", list, 10000, MORE, 40);
    list[366] = 366;
    try_list("a list that ends with 366 twice", list, 10000, MORE, 40);
    same("too few places", line_next_days(list, 366, nowhere, 365), 23);
    same("a bad list", line_next_days(list, 367, nowhere, 366), 40);
}

static void try_date(uint32_t date, uint8_t found, uint32_t wanted)
{
    char what[32];
    line_compensation got = line_compensation_date(date);

    snprintf(what, sizeof what, "date %" PRIu32, date);
    same(what, got.found, found);
    same(what, got.date, wanted);
}

static void try_dates(void)
{
    static const uint32_t none_left[] = { 291228, 301228, 311228 };
    static const uint32_t no_days[] = { 0,      28,      128,     10028,      320128,
                                        300228, 310428,  11328,   10127,      10129,
                                        1128,   1010128, 6563728, 4294967228, 4294967295 };
    size_t i;

    try_date(10128, 0, 30128);
    try_date(50128, 0, 70128);
    try_date(280228, 0, 290228);
    try_date(290228, 0, 10328);
    try_date(280428, 0, 20528);
    try_date(111028, 0, 131028);
    try_date(221228, 0, 261228);
    try_date(281228, 0, 291228);
    for (i = 0; i < COUNT(none_left); i++)
        try_date(none_left[i], 1, 0);
    for (i = 0; i < COUNT(no_days); i++)
        try_date(no_days[i], 2, 0);
}

int main(void)
{
    try_good_lists();
    try_bad_lists();
    try_reading();
    try_dates();
    return counted();
}
