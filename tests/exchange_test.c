/* Runs evenings through line_exchange: one of a document each way, one whose
   near document the far end does not take, two with a document for nothing,
   which no end sends, and some with a tray that is cut.
   Use: exchange_test, without arguments. */
#include "example.h"
#include "line.h"
#include "same.h"
#include "unreadable.h"

#include <string.h>

/* The places of the receiving entity, the drawee and the nominal. */
#define ENTITY 18
#define DRAWEE 31
#define NOMINAL 25

static void same_sums(const char *what, line_sums got, line_sums wanted)
{
    same(what, (int64_t)got.lots, (int64_t)wanted.lots);
    same(what, (int64_t)got.documents, (int64_t)wanted.documents);
    same(what, (int64_t)got.nominal, (int64_t)wanted.nominal);
    same(what, (int64_t)got.commission, (int64_t)wanted.commission);
}

static void same_side(const char *what, line_side got, line_side wanted)
{
    same_sums(what, got.presented, wanted.presented);
    same_sums(what, got.received, wanted.received);
    same(what, got.close, wanted.close);
    same(what, got.awaited, wanted.awaited);
    same(what, (int64_t)got.lot_number, (int64_t)wanted.lot_number);
    same_sums(what, got.lot, wanted.lot);
    same(what, got.nominal_position, wanted.nominal_position);
    same(what, got.commission_position, wanted.commission_position);
}

/* An end that presented and received these, and closed in order. */
static line_side side(line_sums presented, line_sums received)
{
    line_side s = { presented, received, 1, 0, 0, { 0, 0, 0, 0 }, 0, 0 };

    s.nominal_position = (int64_t)presented.nominal - (int64_t)received.nominal;
    s.commission_position =
        (int64_t)presented.commission - (int64_t)received.commission;
    return s;
}

/* The evening of a near presentation and some bytes of a near return, and of
   a far return. */
static void run(const char *what, const uint8_t *presented, size_t cut,
                const uint8_t *back, line_evening wanted)
{
    line_evening got = line_exchange(presented, DOCUMENT, example, cut,
                                     example, 0, back, DOCUMENT);

    same(what, got.code, wanted.code);
    same_side(what, got.near_side, wanted.near_side);
    same_side(what, got.far_side, wanted.far_side);
}

/* Both ends as they close, each having received what the other presented. */
static line_evening closed(line_sums near, line_sums far)
{
    line_evening e = { 0, side(near, far), side(far, near) };

    return e;
}

static void clear_nominal(uint8_t *document)
{
    memset(document + NOMINAL, 0, 6);
}

/* A tray that is cut is seen by its length, whichever it is. */
static void try_lengths_alone(void)
{
    const uint8_t *tray = unreadable();

    for (int cut = 0; cut < 4; cut++) {
        size_t len[4] = { DOCUMENT, DOCUMENT, DOCUMENT, DOCUMENT };

        len[cut]--;
        same("nothing read", line_exchange(tray, len[0], tray, len[1], tray, len[2],
                                           tray, len[3]).code, 25);
    }
}

int main(void)
{
    const line_sums none = { 0, 0, 0, 0 };
    const line_sums presented = { 1, 1, 15000, 30 };
    const line_sums returned = { 1, 1, 15099, 30 };
    const line_evening refused = { .code = 25 };
    uint8_t back[DOCUMENT], strange[DOCUMENT], nothing[DOCUMENT];

    memcpy(back, example, DOCUMENT);
    back[ENTITY + 1] = back[DRAWEE + 1] = 0x81;
    back[NOMINAL + 5] = 0x99;
    memcpy(strange, example, DOCUMENT);
    strange[DRAWEE + 1] = 0x73;
    memcpy(nothing, example, DOCUMENT);
    clear_nominal(nothing);

    run("both ways", example, 0, back, closed(presented, returned));
    run("not served", strange, 0, back, closed(none, returned));
    run("for nothing", nothing, 0, back, closed(none, returned));
    clear_nominal(back);
    run("a return for nothing", example, 0, back, closed(presented, none));
    run("a cut tray", example, 50, back, refused);
    try_lengths_alone();

    return counted();
}
