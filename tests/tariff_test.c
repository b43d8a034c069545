/* Works out commissions through line_commission, by tariffs that are good and
   tariffs that are not and at every limit; and those of trays through
   line_fill_commissions, with every byte of the tray looked at afterwards.
   Then an evening is run over a tray as it was typed and as it was filled:
   what is booked is what stands in the documents.
   Use: tariff_test, without arguments. */
#include "example.h"
#include "line.h"
#include "same.h"
#include "unreadable.h"

#include <string.h>

#define ROW 4
#define MOST_NUMBERS 80
#define MOST 99999999
#define LARGEST_NOMINAL 999999999999u

/* Where a document has its nominal, its tariff key and its commission. */
#define NOMINAL 25
#define KEY 41
#define COMMISSION 43

/* The code and the commission of one call. */
static void try_call(const char *what, const uint32_t *tariff, size_t len, uint32_t key,
                     uint64_t nominal, uint64_t typed, uint8_t code, uint64_t commission)
{
    line_commissioned got = line_commission(tariff, len, key, nominal, typed);

    same(what, got.code, code);
    same(what, (int64_t)got.commission, (int64_t)commission);
}

/* A tariff is good where key 0 keeps what was typed, else 42. */
static void try_tariff(const char *what, const uint32_t *tariff, size_t len, int good)
{
    try_call(what, tariff, len, 0, 0, 5, good ? 0 : 42, good ? 5 : 0);
}

/* The keys 1 to 21, each with the rate 0 and a commission that is its key. */
static uint32_t keys[21 * ROW];

static void lay_keys(void)
{
    uint32_t key, *row = keys;

    for (key = 1; key <= 21; key++, row += ROW) {
        row[0] = row[2] = row[3] = key;
        row[1] = 0;
    }
}

/* The row alone, and as the last of twenty. */
static void try_row(const char *what, uint32_t key, uint32_t rate, uint32_t least, uint32_t greatest, int good)
{
    const uint32_t row[ROW] = { key, rate, least, greatest };

    try_tariff(what, row, ROW, good);
    lay_keys();
    memcpy(keys + 19 * ROW, row, sizeof row);
    try_tariff(what, keys, MOST_NUMBERS, good);
}

static void try_rows(void)
{
    try_row("key 0", 0, 0, 0, 0, 0);
    try_row("key 20", 20, 0, 0, 0, 1);
    try_row("key 9999", 9999, 0, 0, 0, 1);
    try_row("key 10000", 10000, 0, 0, 0, 0);
    try_row("the widest key", UINT32_MAX, 0, 0, 0, 0);
    try_row("rate 10000", 20, 10000, 0, 0, 1);
    try_row("rate 10001", 20, 10001, 0, 0, 0);
    try_row("least and greatest alike", 20, 0, 7, 7, 1);
    try_row("least above greatest", 20, 0, 8, 7, 0);
    try_row("the largest greatest", 20, 0, 0, MOST, 1);
    try_row("a larger greatest", 20, 0, 0, MOST + 1, 0);
    try_row("the widest numbers", 20, UINT32_MAX, UINT32_MAX, UINT32_MAX, 0);
}

static void try_lengths(void)
{
    char what[32];
    size_t len;
    uint32_t key;

    lay_keys();
    for (len = 0; len <= COUNT(keys); len++) {
        snprintf(what, sizeof what, "%u numbers", (unsigned)len);
        try_tariff(what, keys, len, len % ROW == 0 && len <= MOST_NUMBERS);
    }
    for (key = 1; key <= 20; key++) {
        snprintf(what, sizeof what, "key %u of 20", (unsigned)key);
        try_call(what, keys, MOST_NUMBERS, key, 0, 5, 0, key);
    }
    try_call("key 21 of 20", keys, MOST_NUMBERS, 21, 0, 5, 41, 0);

    keys[0] = 2;
    try_tariff("a key twice, side by side", keys, MOST_NUMBERS, 0);
    keys[0] = 20;
    try_tariff("a key twice, first and last", keys, MOST_NUMBERS, 0);
    try_call("and the last left out", keys, 19 * ROW, 20, 0, 5, 0, 1);
}

/* What is read: nothing behind a tariff or a tray, nothing of a tariff whose
   length is bad, and nothing of a tray where the tariff or its length is. */
static void try_reading(void)
{
    static const uint32_t bad[ROW] = { 0, 0, 0, 0 };
    uint32_t *nowhere = (uint32_t *)(void *)unreadable();
    uint32_t *full = (uint32_t *)(void *)before_unreadable(MOST_NUMBERS * sizeof *full);
    uint8_t *tray = before_unreadable(2 * DOCUMENT);

    lay_keys();
    memcpy(full, keys, MOST_NUMBERS * sizeof *full);
    try_call("a tariff and nothing behind it", full, MOST_NUMBERS, 20, 0, 5, 0, 20);
    try_call("an unknown key and nothing behind", full, MOST_NUMBERS, 21, 0, 5, 41, 0);
    try_tariff("3 numbers that cannot be read", nowhere, 3, 0);
    try_tariff("84 numbers that cannot be read", nowhere, 84, 0);
    try_tariff("a million", nowhere, 1000000, 0);

    memcpy(tray, example, DOCUMENT);
    memcpy(tray + DOCUMENT, example, DOCUMENT);
    same("a tray and nothing behind it", line_fill_commissions(keys, ROW, tray, 2 * DOCUMENT).code, 0);
    same("no tray read for 42", line_fill_commissions(bad, ROW, unreadable(), DOCUMENT).code, 42);
    same("none for 25", line_fill_commissions(keys, ROW, unreadable(), DOCUMENT + 1).code, 25);
}

/* The commission of key 7 at a rate, raised and cut. */
static void try_worth(uint32_t rate, uint32_t least, uint32_t greatest, uint64_t nominal, uint64_t wanted)
{
    const uint32_t row[ROW] = { 7, rate, least, greatest };
    char what[64];

    snprintf(what, sizeof what, "%" PRIu64 " at rate %" PRIu32, nominal, rate);
    try_call(what, row, ROW, 7, nominal, 1234, 0, wanted);
}

static void try_worths(void)
{
    try_worth(1000, 0, MOST, 24, 2);
    try_worth(1000, 0, MOST, 25, 3);
    try_worth(1000, 0, MOST, 26, 3);
    try_worth(1, 0, MOST, 4999, 0);
    try_worth(1, 0, MOST, 5000, 1);
    try_worth(0, 0, MOST, LARGEST_NOMINAL, 0);
    try_worth(1000, 10, 20, 0, 10);
    try_worth(1000, 10, 20, 94, 10);
    try_worth(1000, 10, 20, 150, 15);
    try_worth(1000, 10, 20, 210, 20);
    try_worth(1000, 10, 20, 1000000, 20);
    try_worth(10000, 0, MOST, MOST, MOST);
    try_worth(10000, 0, MOST, LARGEST_NOMINAL, MOST);
    try_worth(10000, 7, 7, LARGEST_NOMINAL, 7);
}

static void try_order(void)
{
    static const uint32_t good[ROW] = { 7, 1000, 0, MOST }, bad[ROW] = { 0, 1000, 0, MOST };
    static const uint64_t nominals[] = { LARGEST_NOMINAL + 1, 0, UINT64_MAX };
    static const uint64_t typed[] = { 0, MOST + 1, UINT64_MAX };
    static const uint32_t known[] = { 0, 7 }, unknown[] = { 6, 9999, 10000, UINT32_MAX };
    size_t i, k;

    for (i = 0; i < COUNT(nominals); i++) {
        for (k = 0; k < COUNT(known); k++) {
            try_call("42 before 01", bad, ROW, known[k], nominals[i], typed[i], 42, 0);
            try_call("01 with a known key", good, ROW, known[k], nominals[i], typed[i], 1, 0);
        }
        for (k = 0; k < COUNT(unknown); k++) {
            try_call("42 before all", bad, ROW, unknown[k], nominals[i], typed[i], 42, 0);
            try_call("01 before 41", good, ROW, unknown[k], nominals[i], typed[i], 1, 0);
        }
    }
    for (k = 0; k < COUNT(unknown); k++)
        try_call("41", good, ROW, unknown[k], LARGEST_NOMINAL, MOST, 41, 0);
    try_call("key 0 by a bad tariff", bad, ROW, 0, 0, 5, 42, 0);
    try_call("key 0 by an empty tariff", good, 0, 0, 0, 5, 0, 5);
    try_call("another key by an empty tariff", good, 0, 10000, 0, 5, 41, 0);
    try_call("key 0", good, ROW, 0, LARGEST_NOMINAL, MOST, 0, MOST);
}

/* Trays of at most three documents, each the example with another key and with
   12345678 as the commission that was typed. */
#define TRAY (3 * DOCUMENT)

static const uint32_t tenth[ROW] = { 9907, 1000, 0, MOST };
static uint8_t tray[TRAY + 1], wanted[TRAY + 1];

static void lay(size_t place, uint8_t high, uint8_t low)
{
    static const uint8_t typed[] = { 0x12, 0x34, 0x56, 0x78 };
    uint8_t *document = tray + place * DOCUMENT;

    memcpy(document, example, DOCUMENT);
    document[KEY] = high;
    document[KEY + 1] = low;
    memcpy(document + COMMISSION, typed, sizeof typed);
}

/* The answer; and every byte of the tray, and the one behind it, as wanted. */
static void try_tray(const char *what, const uint32_t *tariff, size_t len, uint8_t code, uint64_t documents)
{
    line_filled got = line_fill_commissions(tariff, ROW, tray, len);

    same(what, got.code, code);
    same(what, (int64_t)got.documents, (int64_t)documents);
    same(what, memcmp(tray, wanted, sizeof tray) == 0, 1);
}

static void try_kept(const char *what, const uint32_t *tariff, size_t len, uint8_t code, uint64_t documents)
{
    memcpy(wanted, tray, sizeof tray);
    try_tray(what, tariff, len, code, documents);
}

/* The example's nominal is 15000, of which a tenth is 1500. */
static void want_a_tenth(size_t place)
{
    static const uint8_t written[] = { 0x00, 0x00, 0x15, 0x00 };

    memcpy(wanted + place * DOCUMENT + COMMISSION, written, sizeof written);
}

static void try_filled(void)
{
    lay(0, 0x99, 0x07);
    lay(1, 0x00, 0x00);
    lay(2, 0x99, 0x07);
    tray[TRAY] = 0xEE;
    try_kept("no document", tenth, 0, 0, 0);
    want_a_tenth(0);
    try_tray("one document", tenth, DOCUMENT, 0, 1);
    want_a_tenth(2);
    try_tray("three documents", tenth, TRAY, 0, 3);
    try_tray("again", tenth, TRAY, 0, 3);
}

static void try_refused(void)
{
    static const uint32_t bad[ROW] = { 9907, 10001, 0, MOST };

    lay(0, 0x99, 0x07);
    lay(1, 0x00, 0x07);
    lay(2, 0x99, 0x07);
    try_kept("a bad tariff", bad, TRAY, 42, 0);
    try_kept("a bad tariff, a cut tray", bad, TRAY - 1, 42, 0);
    try_kept("one byte too many", tenth, DOCUMENT + 1, 25, 0);
    try_kept("one byte too few", tenth, DOCUMENT - 1, 25, 0);
    try_kept("a cut tray with an unknown key", tenth, 2 * DOCUMENT + 1, 25, 0);
    try_kept("an unknown key in the middle", tenth, TRAY, 41, 1);
    tray[DOCUMENT + COMMISSION + 3] = 0x3A;
    try_kept("no digits in its commission", tenth, TRAY, 3, 1);
    tray[DOCUMENT + NOMINAL] = 0xA0;
    try_kept("nor in its nominal", tenth, TRAY, 3, 1);
    tray[DOCUMENT + KEY] = 0x0F;
    try_kept("nor in its key", tenth, TRAY, 1, 1);
    lay(1, 0x00, 0x00);
    tray[DOCUMENT + COMMISSION] = 0xF0;
    try_kept("no digits in the commission of key 0", tenth, TRAY, 3, 1);
    lay(1, 0x99, 0x07);
    tray[2 * DOCUMENT + KEY + 1] = 0x08;
    try_kept("an unknown key at the end", tenth, TRAY, 41, 2);
    tray[KEY + 1] = 0x70;
    try_kept("and at the start", tenth, TRAY, 41, 0);
}

/* Both ends book what the document states, whatever a tariff says of its key. */
static void try_evening(const char *what, int64_t commission)
{
    line_evening got = line_exchange(tray, DOCUMENT, NULL, 0, NULL, 0, NULL, 0);

    same(what, got.code, 0);
    same(what, (int64_t)got.near_side.presented.documents, 1);
    same(what, (int64_t)got.near_side.presented.commission, commission);
    same(what, (int64_t)got.far_side.received.commission, commission);
}

static void try_booked(void)
{
    lay(0, 0x99, 0x07);
    try_evening("as it was typed", 12345678);
    same("filled", line_fill_commissions(tenth, ROW, tray, DOCUMENT).code, 0);
    try_evening("as it was filled", 1500);
}

int main(void)
{
    try_rows();
    try_lengths();
    try_reading();
    try_worths();
    try_order();
    try_filled();
    try_refused();
    try_booked();
    return counted();
}
