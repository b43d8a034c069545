/* Adds lots to lot files, finds them and takes them out, with every byte of
   the memory looked at after each call: the file, the bytes before and behind
   it, and the tray. Files are full, as long as they can be, without a byte to
   spare, and broken in every way.
   Use: lot_file_test, without arguments. */
#include "example.h"
#include "line.h"
#include "same.h"
#include "unreadable.h"

#include <stdlib.h>
#include <string.h>

#define ROWS 64
#define ROW 10
#define TABLE LINE_LOT_FILE_TABLE
#define MOST 2600
#define GUARD 64
#define EMPTY 0xEE

/* A file with guards before and behind it, and what it should be. */
static uint8_t *memory, *wanted, *file, *want;
static size_t length;

/* The documents of a lot, each byte told by the lot and its place; one more
   than a lot may have. */
static uint8_t tray[(MOST + 1) * DOCUMENT];

static void open_file(size_t len)
{
    free(memory);
    free(wanted);
    length = len;
    memory = malloc(len + 2 * GUARD);
    wanted = malloc(len + 2 * GUARD);
    if (!memory || !wanted)
        abort();
    file = memory + GUARD;
    want = wanted + GUARD;
    memset(memory, EMPTY, len + 2 * GUARD);
    memset(file, 0, len < TABLE ? len : TABLE);
    memcpy(wanted, memory, len + 2 * GUARD);
}

static uint8_t byte_of(uint32_t number, size_t place)
{
    return (uint8_t)(number * 31 + place * 7 + place / DOCUMENT);
}

static void lay_tray(uint32_t number, size_t documents)
{
    size_t i;

    for (i = 0; i < documents * DOCUMENT; i++)
        tray[i] = byte_of(number, i);
}

static void want_row(size_t place, uint32_t number, size_t start, size_t documents)
{
    const uint8_t row[ROW] = {
        (uint8_t)(number >> 8), (uint8_t)number,
        (uint8_t)(start >> 24), (uint8_t)(start >> 16), (uint8_t)(start >> 8), (uint8_t)start,
        (uint8_t)(documents >> 24), (uint8_t)(documents >> 16), (uint8_t)(documents >> 8), (uint8_t)documents,
    };

    memcpy(want + place * ROW, row, ROW);
}

/* Every byte as wanted. */
static void same_bytes(const char *what)
{
    same(what, memcmp(memory, wanted, length + 2 * GUARD) == 0, 1);
}

static void try_add(const char *what, uint32_t number, size_t tray_len, uint8_t code)
{
    static uint8_t before[sizeof tray];

    memcpy(before, tray, tray_len);
    same(what, line_lot_file_add(file, length, number, tray, tray_len), code);
    same(what, memcmp(before, tray, tray_len) == 0, 1);
    same_bytes(what);
}

static void try_take(const char *what, uint32_t number, uint8_t code)
{
    same(what, line_lot_file_take_out(file, length, number), code);
    same_bytes(what);
}

static void try_find(const char *what, uint32_t number, uint8_t code, size_t start, size_t documents)
{
    line_lot_found got = line_lot_file_find(file, length, number);

    same(what, got.code, code);
    same(what, (int64_t)got.start, (int64_t)start);
    same(what, (int64_t)got.documents, (int64_t)documents);
    same_bytes(what);
}

/* The lot is added at a place and its body at a start. */
static void add_lot(const char *what, size_t place, uint32_t number, size_t start, size_t documents)
{
    lay_tray(number, documents);
    want_row(place, number, start, documents);
    memcpy(want + start, tray, documents * DOCUMENT);
    try_add(what, number, documents * DOCUMENT, 0);
}

/* A row as it stands in the file now; what is wanted is what stands there. */
static void set_row(size_t place, uint32_t number, size_t start, size_t documents)
{
    want_row(place, number, start, documents);
    memcpy(memory, wanted, length + 2 * GUARD);
}

/* Two lots, 7 with one document and 9 with two, and room for one document. */
static void two_lots(void)
{
    open_file(TABLE + 4 * DOCUMENT);
    add_lot("lot 7", 0, 7, TABLE, 1);
    add_lot("lot 9", 1, 9, TABLE + DOCUMENT, 2);
}

static void try_lots(void)
{
    two_lots();
    try_find("lot 7", 7, 0, TABLE, 1);
    try_find("lot 9", 9, 0, TABLE + DOCUMENT, 2);
    try_find("lot 8", 8, 46, 0, 0);
    try_take("lot 8", 8, 46);

    /* 7 goes: 9 moves down, and what stood past its new end stays */
    want_row(0, 9, TABLE, 2);
    want_row(1, 0, 0, 0);
    memmove(want + TABLE, want + TABLE + DOCUMENT, 2 * DOCUMENT);
    try_take("lot 7 out", 7, 0);
    try_find("lot 7 gone", 7, 46, 0, 0);
    try_find("lot 9 moved", 9, 0, TABLE, 2);

    /* what is freed serves the next */
    add_lot("lot 258", 1, 258, TABLE + 2 * DOCUMENT, 2);
    try_find("lot 258", 258, 0, TABLE + 2 * DOCUMENT, 2);
    lay_tray(10, 1);
    try_add("and no more", 10, DOCUMENT, 45);

    /* the last one goes: its body's bytes stay */
    want_row(1, 0, 0, 0);
    try_take("lot 258 out", 258, 0);
    want_row(0, 0, 0, 0);
    try_take("lot 9 out", 9, 0);
    same("an empty file", line_lot_file_check(file, length), 0);
}

/* 25 whatever is asked, with every byte kept. */
static void try_broken(const char *what)
{
    same(what, line_lot_file_check(file, length), 25);
    try_find(what, 7, 25, 0, 0);
    try_find(what, 100, 25, 0, 0);
    lay_tray(100, 1);
    try_add(what, 100, DOCUMENT, 25);
    try_add(what, 7, DOCUMENT, 25);
    try_take(what, 7, 25);
    try_take(what, 100, 25);
}

/* Two lots, with another row at a place. */
static void try_row(const char *what, size_t place, uint32_t number, size_t start, size_t documents, int good)
{
    two_lots();
    set_row(place, number, start, documents);
    if (good)
        same(what, line_lot_file_check(file, length), 0);
    else
        try_broken(what);
}

static void try_rows(void)
{
    try_row("a gap", 1, 9, TABLE + DOCUMENT + 1, 2, 0);
    try_row("an overlap", 1, 9, TABLE + DOCUMENT - 1, 2, 0);
    try_row("a start too small", 0, 7, TABLE - 1, 1, 0);
    try_row("a start too large", 0, 7, TABLE + 1, 1, 0);
    try_row("a start in another byte", 0, 7, TABLE + 0x1000000, 1, 0);
    try_row("a used row after an unused one", 3, 8, TABLE + 3 * DOCUMENT, 1, 0);
    try_row("an unused row first", 0, 0, 0, 0, 0);
    try_row("a number of zero alone", 1, 0, TABLE + DOCUMENT, 2, 0);
    try_row("a row that is a number alone", 2, 8, 0, 0, 0);
    try_row("a start alone", 2, 0, TABLE + 3 * DOCUMENT, 0, 0);
    try_row("documents alone", 2, 0, 0, 1, 0);
    try_row("number 9999", 1, 9999, TABLE + DOCUMENT, 2, 1);
    try_row("number 10000", 1, 10000, TABLE + DOCUMENT, 2, 0);
    try_row("two alike", 1, 7, TABLE + DOCUMENT, 2, 0);
    try_row("numbers that share a byte", 1, 256 + 7, TABLE + DOCUMENT, 2, 1);
    try_row("no documents", 1, 9, TABLE + DOCUMENT, 0, 0);
    try_row("one document more", 1, 9, TABLE + DOCUMENT, 3, 1);
    try_row("a document outside", 1, 9, TABLE + DOCUMENT, 4, 0);
    try_row("so many that a sum wraps", 1, 9, TABLE + DOCUMENT, 0xFFFFFFFF, 0);

    two_lots();
    length--;
    same("room for nearly a document", line_lot_file_check(file, length), 0);
    length -= DOCUMENT;
    try_broken("the last body one byte outside");
    open_file(TABLE - 1);
    try_broken("639 bytes");
    open_file(0);
    try_broken("no bytes");
    open_file(TABLE);
    same("640 bytes", line_lot_file_check(file, length), 0);
}

static void try_numbers(void)
{
    static const uint32_t bad[] = { 0, 10000, 65536 + 7, UINT32_MAX };
    size_t i;

    two_lots();
    lay_tray(1, 1);
    for (i = 0; i < COUNT(bad); i++) {
        try_find("a number out of range", bad[i], 25, 0, 0);
        try_take("a number out of range", bad[i], 25);
        try_add("a number out of range", bad[i], DOCUMENT, 25);
    }
    add_lot("number 9999", 2, 9999, TABLE + 3 * DOCUMENT, 1);
    try_find("number 9999", 9999, 0, TABLE + 3 * DOCUMENT, 1);
}

static void try_trays(void)
{
    two_lots();
    lay_tray(1, MOST + 1);
    try_add("an empty tray", 1, 0, 25);
    try_add("a byte too few", 1, DOCUMENT - 1, 25);
    try_add("a byte too many", 1, DOCUMENT + 1, 25);
    try_add("too many documents", 1, (MOST + 1) * DOCUMENT, 25);
    try_add("a bad tray of a lot that is there", 7, DOCUMENT + 1, 25);
    try_add("the longest tray, and no room", 1, MOST * DOCUMENT, 45);
    try_add("the longest tray of a lot that is there", 7, MOST * DOCUMENT, 4);
}

/* Exactly enough room, and a byte less. */
static void try_room(void)
{
    open_file(TABLE + 3 * DOCUMENT - 1);
    add_lot("two documents", 0, 7, TABLE, 2);
    lay_tray(8, 1);
    try_add("a byte too little", 8, DOCUMENT, 45);
    try_add("and the lot there", 7, DOCUMENT, 4);
    open_file(TABLE + 3 * DOCUMENT);
    add_lot("two documents", 0, 7, TABLE, 2);
    add_lot("exactly enough", 1, 8, TABLE + 2 * DOCUMENT, 1);
}

/* All rows used: 04, 45 and 25 in their order, and the first lot out and in
   again until all have moved. */
static void try_full(void)
{
    size_t i;

    open_file(TABLE + (ROWS + 1) * DOCUMENT);
    for (i = 0; i < ROWS; i++)
        add_lot("a full table", i, (uint32_t)(ROWS - i), TABLE + i * DOCUMENT, 1);
    lay_tray(7, 1);
    try_add("a full table, the lot there", 7, DOCUMENT, 4);
    try_add("a full table", 65, DOCUMENT, 45);
    try_add("a full table, number 0", 0, DOCUMENT, 25);
    try_take("a full table, an absent lot", 65, 46);
    for (i = 0; i < ROWS; i++) {
        uint32_t number = (uint32_t)(ROWS - i);
        size_t later;

        for (later = 1; later < ROWS; later++) {
            uint32_t other = (uint32_t)(ROWS - (i + later) % ROWS);

            want_row(later - 1, other, TABLE + (later - 1) * DOCUMENT, 1);
        }
        want_row(ROWS - 1, 0, 0, 0);
        memmove(want + TABLE, want + TABLE + DOCUMENT, (ROWS - 1) * DOCUMENT);
        try_take("the first out", number, 0);
        add_lot("and in again", ROWS - 1, number, TABLE + (ROWS - 1) * DOCUMENT, 1);
    }
    same("and good", line_lot_file_check(file, length), 0);
}

/* The longest file: 64 lots of 2,600 documents. */
static void try_longest(void)
{
    size_t i, body = MOST * (size_t)DOCUMENT;

    open_file(TABLE + ROWS * body);
    for (i = 0; i < ROWS; i++)
        add_lot("the longest file", i, (uint32_t)(i + 1), TABLE + i * body, MOST);
    try_find("the last of the longest", ROWS, 0, TABLE + (ROWS - 1) * body, MOST);
    for (i = 1; i < ROWS; i++)
        want_row(i - 1, (uint32_t)(i + 1), TABLE + (i - 1) * body, MOST);
    want_row(ROWS - 1, 0, 0, 0);
    memmove(want + TABLE, want + TABLE + body, (ROWS - 1) * body);
    try_take("the first of the longest", 1, 0);
    set_row(0, 2, TABLE, MOST + 1);
    try_broken("2601 documents");
}

/* A short file is not read, nor is a byte behind one. */
static void try_reading(void)
{
    uint8_t *end = before_unreadable(TABLE);

    memset(end, 0, TABLE);
    same("nothing behind a file", line_lot_file_check(end, TABLE), 0);
    same("639 bytes that cannot be read", line_lot_file_check(unreadable(), TABLE - 1), 25);
    same("nor added to", line_lot_file_add(unreadable(), TABLE - 1, 7, example, DOCUMENT), 25);
    same("nor taken out of", line_lot_file_take_out(unreadable(), TABLE - 1, 7), 25);
}

int main(void)
{
    try_lots();
    try_rows();
    try_numbers();
    try_trays();
    try_room();
    try_full();
    try_longest();
    try_reading();
    return counted();
}
