/*
 * For C and C++ callers: the detail check, link with libdetail.a; a whole
 * evening of two engines over trays, scripts of evenings, next working days,
 * compensation dates, commissions by tariff key, check digits and lot files,
 * link with libentries.a. Both libraries may be linked into one program.
 *
 * They are built for x86-64 Linux, with the System V calling convention, and
 * may be linked into a program or a shared object. libdetail.a needs nothing
 * beside it, libentries.a memcpy and memset of the C library.
 */
#ifndef LINE_H
#define LINE_H

#include <stddef.h>
#include <stdint.h>

#ifdef __cplusplus
extern "C" {
#endif

/* What the check found. The three totals are 0 unless code is 0. */
typedef struct line_checked {
    uint8_t code;        /* 0 accepted, else the first code that applies */
    uint64_t documents;  /* number of documents in the body */
    uint64_t nominal;    /* sum of their nominal amounts, smallest units */
    uint64_t commission; /* sum of their commissions, smallest units */
} line_checked;

/*
 * Checks one bare detail body, without its envelope, for the receiving
 * entity `own` and the entities it represents.
 *
 * Codes, the first that applies:
 *   24  own or a represented entity above 9999, or more than 8 represented
 *    1  shape: length, or the mark (byte 2, hexadecimal 51), operation or
 *       count of any group
 *    9  a later group has the other operation
 *    1  a field of any document, amounts aside
 *    3  a nominal or commission with a non-digit
 *    6  a presented document's drawee is neither own nor represented
 *   44  the nominal of any document, presented or return, is zero
 * They are plain numbers: 24 is twenty-four. So are own and represented:
 * entity 0072 is 72.
 *
 * Lengths: body_len counts bytes, represented_len counts entities. Any
 * length may be passed as long as its bytes fit in PTRDIFF_MAX. A length is
 * looked at before a byte that it counts is read: more than 8 represented
 * get 24 with nothing read, and a body of 0 or of more than 10,400 bytes
 * gets 1 with nothing of the body read.
 *
 * Pointers: each must be valid for reading its whole length, and
 * represented aligned as uint16_t. A null pointer is allowed with length 0.
 *
 * The call only reads what is lent, changes none of it and keeps nothing.
 * There is no global state, so several threads may call at once, on the
 * same bytes too, while nobody writes them.
 */
line_checked line_check_detail(const uint8_t *body, size_t body_len,
                               uint32_t own,
                               const uint16_t *represented,
                               size_t represented_len);

/* The accepted lots of a direction, or one lot whose total is awaited, as an
   end reports them. */
typedef struct line_sums {
    uint64_t lots;
    uint64_t documents;
    uint64_t nominal;    /* smallest units */
    uint64_t commission; /* smallest units */
} line_sums;

/* The report of one end after its clock call at 23:30. */
typedef struct line_side {
    line_sums presented;
    line_sums received;
    uint8_t close;       /* 0 open, 1 closed in order, 2 closed forced */
    uint8_t awaited;     /* what awaits a reply: 0 neither, 1 a lot total,
                            2 a session total */
    uint64_t lot_number; /* of the lot whose total is awaited, else 0 */
    line_sums lot;       /* its documents and sums, else 0; lots is 0, since
                            it is not among the accepted ones */
    int64_t nominal_position;    /* presented less received */
    int64_t commission_position; /* the same of the commissions */
} line_side;

/* What an evening gives. Both sides are 0 unless code is 0. */
typedef struct line_evening {
    uint8_t code; /* 0, or 25 where a tray is not a multiple of 51 bytes */
    line_side near_side;
    line_side far_side;
} line_evening;

/*
 * Runs an evening of two engines, 0081 near and 0072 far, none represented,
 * on 14 March 2028, over four trays of ready documents, 51 bytes each.
 *
 * At 21:00 the near end presents its trays, then the far end its own. Lots
 * are numbered from 1. Each takes the next parts of at most 200 documents,
 * presentations before returns, until the next part would pass 2,600
 * documents, the trays are used up, or a part is not accepted; then comes its
 * total. After 64 lots, or where a lot takes no document or none remain, the
 * direction ends with its session total. Then both ends close and report.
 *
 * What is refused or replied to with a code stays unsent: nobody mends it,
 * and the reports show what was accepted. A part with a document of nominal
 * zero is such a case, and so are two lots with the same three totals; so the
 * amounts of a measurement should differ, and no nominal be zero.
 *
 * Whatever lies in the trays, each end's received sums are then the other's
 * presented ones, and neither end awaits a reply: the theorem
 * EveningIsSettled (docs/AGREEMENT.md, 'An evening of the driver').
 *
 * Lengths, pointers and threads are as for line_check_detail; 25 is given by
 * the lengths, with nothing read. The call needs less than 128 kB of stack
 * and no heap.
 */
line_evening line_exchange(const uint8_t *near_presentations,
                           size_t near_presentations_len,
                           const uint8_t *near_returns,
                           size_t near_returns_len,
                           const uint8_t *far_presentations,
                           size_t far_presentations_len,
                           const uint8_t *far_returns,
                           size_t far_returns_len);

/* How far a script was played. */
typedef struct line_played {
    uint64_t read;    /* bytes of the script whose lines were played */
    uint64_t written; /* bytes of answers at the start of the output */
    uint8_t stop;     /* 0 at the script's end; 1 where the answer to the next
                         line does not fit in what is left of the output */
} line_played;

/*
 * Plays a session script, a text that names calls at the two ends A and B,
 * and writes a line of answer for each line that is not passed over, `bad
 * line` for one that cannot be read. Link with libentries.a.
 *
 * Both ends are without a session at first. The script's last line may lack
 * its line feed; the last answer has one. Any bytes may be passed.
 *
 * Stop 1: read is where the line begins whose answer does not fit. No part of
 * that answer is written, and nothing after it is played. A call always
 * starts anew and cannot go on from there: play again with a longer output.
 *
 * wire is where the messages and replies are remembered that later lines name
 * by their numbers. It takes 2,097,152 bytes; with fewer nothing is
 * remembered, and naming a number is a bad line. What lies in wire at first
 * does not count, and what lies there afterwards means nothing.
 *
 * Lengths: each counts bytes, and any length up to PTRDIFF_MAX may be passed,
 * 0 too.
 *
 * Pointers: script must be valid for reading its whole length, output and
 * wire for writing theirs, and the three must not overlap. A null pointer is
 * allowed with length 0.
 *
 * The call changes the first `written` bytes of output and any of wire,
 * nothing else, and keeps nothing. There is no global state, so several
 * threads may call at once, each with its own output and wire.
 */
line_played line_play_script(const uint8_t *script, size_t script_len,
                             uint8_t *output, size_t output_len,
                             uint8_t *wire, size_t wire_len);

/* The places that line_next_days fills: the days of a leap year. */
#define LINE_YEAR_DAYS 366

/*
 * Makes the table of next working days from a list of unworked days. Days are
 * numbered from 1, 1 January, to 366. Place d - 1 of days gets the number of
 * the first day after day d that is not in the list, or 0 if there is none.
 * Link with libentries.a.
 *
 * The list has all unworked days, Saturdays and Sundays too; it may be empty.
 * For a year of 365 days it ends with 366, else day 365 gives 366.
 *
 * Returns 0, or the first of these that applies, with nothing written:
 *   40  the list is not strictly ascending, or has a day outside 1 to 366
 *   23  days has fewer than 366 places
 * They are plain numbers: 40 is forty.
 *
 * Lengths: each counts days, not bytes, and any length may be passed as long
 * as its bytes fit in PTRDIFF_MAX. The list is read up to the first day that
 * breaks the rule, so no more than 367 of its days are read.
 *
 * Pointers: unworked must be valid for reading its whole length, days for
 * writing its own; both must be aligned as uint16_t, and they must not
 * overlap. A null pointer is allowed with length 0.
 *
 * The call changes the first 366 places of days, nothing else, and keeps
 * nothing. There is no global state, so several threads may call at once,
 * each with its own days, and on the same list while nobody writes it.
 */
uint8_t line_next_days(const uint16_t *unworked, size_t unworked_len,
                       uint16_t *days, size_t days_len);

/* The compensation date of a day. */
typedef struct line_compensation {
    uint8_t found; /* 0 where the date was found; 1 the year has no later
                      working day; 2 the number asked for is no day of 2028 */
    uint32_t date; /* DDMM28 as a number; 0 where found is 1 or 2 */
} line_compensation;

/*
 * Gives the compensation date of a day of 2028: the first working day after
 * it, which is the date that a session held on that day starts from. `date` is
 * the day's own, the number DDMM28 without leading zeros (50128 is 5 January).
 * Not worked are Saturdays, Sundays, 1 and 6 January, 1 May, 12 October and 25
 * December. Any number may be passed. Link with libentries.a.
 *
 * There is no global state, so several threads may call at once.
 */
line_compensation line_compensation_date(uint32_t date);

/*
 * A tariff says what documents with a tariff key pay. It is lent as numbers
 * one behind the other, four for each key, 20 keys at most:
 *   the key        1 to 9999, no two alike
 *   its rate       per ten thousand, 0 to 10,000
 *   the least      commission, smallest units, not above the greatest
 *   the greatest   commission, at most 99,999,999
 * Anything else is a bad tariff; so is a length that is no multiple of 4. A
 * tariff of length 0 is good and knows key 0 alone.
 */

/* A commission, or why there is none. */
typedef struct line_commissioned {
    uint8_t code;        /* 0, else the first code that applies */
    uint64_t commission; /* smallest units; 0 unless code is 0 */
} line_commissioned;

/*
 * Works out the commission of a presented document from its tariff key, its
 * nominal and the commission that was typed: nominal times rate divided by
 * 10,000, an exact half going up, then raised to the key's least or cut to its
 * greatest. Key 0 keeps the typed commission. Any numbers may be passed. Link
 * with libentries.a.
 *
 * Codes, the first that applies:
 *   42  a bad tariff, also with key 0
 *    1  a nominal above 999,999,999,999 or a typed commission above
 *       99,999,999, whatever the key
 *   41  a key that is neither 0 nor in the tariff
 * They are plain numbers: 42 is forty-two.
 *
 * Lengths: tariff_len counts numbers, not keys or bytes, and any length may be
 * passed as long as its bytes fit in PTRDIFF_MAX. More than 80, and a length
 * that is no multiple of 4, get 42 with nothing read.
 *
 * Pointers: tariff must be valid for reading its whole length and aligned as
 * uint32_t. A null pointer is allowed with length 0.
 *
 * The call only reads what is lent and keeps nothing. There is no global
 * state, so several threads may call at once, on the same tariff too, while
 * nobody writes it.
 */
line_commissioned line_commission(const uint32_t *tariff, size_t tariff_len,
                                  uint32_t key, uint64_t nominal,
                                  uint64_t typed);

/* What became of a tray. */
typedef struct line_filled {
    uint8_t code;       /* 0, else the first code that applies */
    uint64_t documents; /* code 0: how many the tray has; 1, 3 and 41: the
                           place of the document, the first being 0; 42 and
                           25: 0 */
} line_filled;

/*
 * Works out the commission of every document of a tray of presented documents,
 * 51 bytes each, and writes it into each whose tariff key is not 0. Counted
 * from 0, a document has its nominal in bytes 25 to 30, its tariff key in 41
 * and 42, its commission in 43 to 46, all packed digits. Link with
 * libentries.a.
 *
 * Codes, the first that applies, with nothing written:
 *   42  a bad tariff
 *   25  a tray that is not a multiple of 51 bytes; an empty one is good
 * and then of the first document that has one of these:
 *    1  a tariff key with a non-digit
 *    3  a nominal or a commission with a non-digit, whatever the key
 *   41  a key that is neither 0 nor in the tariff
 * The rest of a document is left to the detail check and the send.
 *
 * Pass presented documents only: a return has its reason where the key stands,
 * and the call would take it for a key.
 *
 * Lengths: tariff_len is as for line_commission; tray_len counts bytes, up to
 * PTRDIFF_MAX. 42 and 25 are given with nothing of the tray read.
 *
 * Pointers: the tariff's is as for line_commission; tray must be valid for
 * reading and writing its whole length, and the two must not overlap. A null
 * pointer is allowed with length 0.
 *
 * The call changes those commission bytes, nothing else, and keeps nothing.
 * There is no global state, so several threads may call at once, each with its
 * own tray, and on the same tariff while nobody writes it.
 */
line_filled line_fill_commissions(const uint32_t *tariff, size_t tariff_len,
                                  uint8_t *tray, size_t tray_len);

/*
 * Check a number and the check digit that a clerk has keyed from a document:
 *   line_check_number   the document's number, at most 7 digits; its digit is
 *                       what is left when it is divided by 7
 *   line_check_branch   entity times 10,000 and the branch, at most 8 digits:
 *                       entity 0072 with branch 0101 is 720101
 *   line_check_account  the account, at most 10 digits
 * The digit of the last two is worked out by weights (docs/CHECK-DIGITS.md,
 * which also says which wrong digits slip through). Link with libentries.a.
 *
 * Each returns 0 where the number is no longer than that and the digit is its
 * own, else 43. They are plain numbers: 43 is forty-three. A digit above 9 is
 * no number's own. Any numbers may be passed.
 *
 * There is no global state, so several threads may call at once.
 */
uint8_t line_check_number(uint64_t number, uint8_t digit);

uint8_t line_check_branch(uint64_t number, uint8_t digit);

uint8_t line_check_account(uint64_t number, uint8_t digit);

/*
 * A lot file holds the documents of accepted lots, for drawee banks to
 * collect, in memory that the caller owns. It begins with a table of contents
 * of 64 rows, 10 bytes each; all numbers have their high byte first:
 *   order number   2 bytes, 1 to 9999, no two alike
 *   start          4 bytes, of the lot's body, counted from the file's first
 *                  byte, 0
 *   documents      4 bytes, 1 to 2600
 * Unused rows are zero and come last. The bodies follow, 51 bytes a document,
 * in the order of their rows, the first right after the table, without gaps;
 * behind the last body any bytes may lie. So 640 zero bytes, and whatever
 * follows, are a good file without a lot. docs/LOT-FILE.md draws it.
 *
 * Of all four calls:
 *
 * Numbers: any may be passed. Codes are plain: 25 is twenty-five.
 *
 * Lengths: file_len and tray_len count bytes, up to PTRDIFF_MAX. Less than 640
 * bytes get 25 with nothing of the file read.
 *
 * Pointers: file must be valid for reading its whole length, for adding and
 * taking out also for writing; tray for reading its own, and the two must not
 * overlap. A null pointer is allowed with length 0.
 *
 * The calls keep nothing, and need no memory beside what is lent. There is no
 * global state, so several threads may call at once, each with its own file,
 * and find in the same one while nobody writes it. Link with libentries.a.
 */

/* The first byte of the first body. */
#define LINE_LOT_FILE_TABLE 640

/* Whether bytes are a good lot file: 0, or 25 where they break its rules. */
uint8_t line_lot_file_check(const uint8_t *file, size_t file_len);

/* Where a lot stands. */
typedef struct line_lot_found {
    uint8_t code;       /* 0, else the first code that applies */
    uint64_t start;     /* of its body in the file; 0 unless code is 0 */
    uint64_t documents; /* how many it has; 0 unless code is 0 */
} line_lot_found;

/*
 * Finds a lot by its order number. Its documents are the bytes from start on,
 * 51 times documents of them, inside the file.
 *
 * Codes, the first that applies:
 *   25  a file that breaks its rules, or a number outside 1 to 9999
 *   46  no row has the number
 */
line_lot_found line_lot_file_find(const uint8_t *file, size_t file_len,
                                  uint32_t number);

/*
 * Adds a lot, last, with the documents of a tray: its row in the first unused
 * row, its body right behind the last one. Every other byte keeps its value.
 *
 * Returns 0, or the first of these that applies, with nothing written:
 *   25  a file that breaks its rules, a number outside 1 to 9999, or a tray
 *       that is empty, not a multiple of 51 bytes or over 2600 documents
 *    4  a row already has the number
 *   45  all rows are used, or fewer bytes remain behind the last body than the
 *       tray has
 */
uint8_t line_lot_file_add(uint8_t *file, size_t file_len, uint32_t number,
                          const uint8_t *tray, size_t tray_len);

/*
 * Takes a lot out: later rows move down by one, with their starts lowered, the
 * last used row becomes zero, and later bodies move down. Bytes past the new
 * last body keep their values; what is freed serves the next lot. Every other
 * lot has the same documents as before.
 *
 * Returns 0, or the first of these that applies, with nothing written:
 *   25  a file that breaks its rules, or a number outside 1 to 9999
 *   46  no row has the number
 */
uint8_t line_lot_file_take_out(uint8_t *file, size_t file_len,
                               uint32_t number);

/*
 * The functions of the libraries themselves take no null pointer. So in C and
 * C++ their names stand for the inline functions below, which hand on the
 * address of an object where a length is 0. Other languages, which bind to the
 * libraries without this header, pass such an address themselves.
 */
static inline const uint8_t *line_lent_bytes(const uint8_t *bytes, size_t len)
{
    static const uint8_t nothing = 0;
    return len == 0 ? &nothing : bytes;
}

static inline const uint16_t *line_lent_numbers(const uint16_t *numbers,
                                                size_t len)
{
    static const uint16_t nothing = 0;
    return len == 0 ? &nothing : numbers;
}

static inline const uint32_t *line_lent_tariff(const uint32_t *tariff,
                                               size_t len)
{
    static const uint32_t nothing = 0;
    return len == 0 ? &nothing : tariff;
}

static inline uint8_t *line_lent_room(uint8_t *room, size_t len)
{
    static uint8_t nothing = 0;
    return len == 0 ? &nothing : room;
}

static inline uint16_t *line_lent_places(uint16_t *places, size_t len)
{
    static uint16_t nothing = 0;
    return len == 0 ? &nothing : places;
}

static inline line_checked
line_check_detail_inline(const uint8_t *body, size_t body_len, uint32_t own,
                         const uint16_t *represented, size_t represented_len)
{
    return line_check_detail(line_lent_bytes(body, body_len), body_len, own,
                             line_lent_numbers(represented, represented_len),
                             represented_len);
}

static inline line_evening
line_exchange_inline(const uint8_t *near_presentations,
                     size_t near_presentations_len,
                     const uint8_t *near_returns, size_t near_returns_len,
                     const uint8_t *far_presentations,
                     size_t far_presentations_len,
                     const uint8_t *far_returns, size_t far_returns_len)
{
    return line_exchange(
        line_lent_bytes(near_presentations, near_presentations_len),
        near_presentations_len,
        line_lent_bytes(near_returns, near_returns_len), near_returns_len,
        line_lent_bytes(far_presentations, far_presentations_len),
        far_presentations_len,
        line_lent_bytes(far_returns, far_returns_len), far_returns_len);
}

static inline line_played
line_play_script_inline(const uint8_t *script, size_t script_len,
                        uint8_t *output, size_t output_len,
                        uint8_t *wire, size_t wire_len)
{
    return line_play_script(line_lent_bytes(script, script_len), script_len,
                            line_lent_room(output, output_len), output_len,
                            line_lent_room(wire, wire_len), wire_len);
}

static inline uint8_t
line_next_days_inline(const uint16_t *unworked, size_t unworked_len,
                      uint16_t *days, size_t days_len)
{
    return line_next_days(line_lent_numbers(unworked, unworked_len),
                          unworked_len,
                          line_lent_places(days, days_len), days_len);
}

static inline line_commissioned
line_commission_inline(const uint32_t *tariff, size_t tariff_len, uint32_t key,
                       uint64_t nominal, uint64_t typed)
{
    return line_commission(line_lent_tariff(tariff, tariff_len), tariff_len,
                           key, nominal, typed);
}

static inline line_filled
line_fill_commissions_inline(const uint32_t *tariff, size_t tariff_len,
                             uint8_t *tray, size_t tray_len)
{
    return line_fill_commissions(line_lent_tariff(tariff, tariff_len),
                                 tariff_len,
                                 line_lent_room(tray, tray_len), tray_len);
}

static inline uint8_t
line_lot_file_check_inline(const uint8_t *file, size_t file_len)
{
    return line_lot_file_check(line_lent_bytes(file, file_len), file_len);
}

static inline line_lot_found
line_lot_file_find_inline(const uint8_t *file, size_t file_len,
                          uint32_t number)
{
    return line_lot_file_find(line_lent_bytes(file, file_len), file_len,
                              number);
}

static inline uint8_t
line_lot_file_add_inline(uint8_t *file, size_t file_len, uint32_t number,
                         const uint8_t *tray, size_t tray_len)
{
    return line_lot_file_add(line_lent_room(file, file_len), file_len, number,
                             line_lent_bytes(tray, tray_len), tray_len);
}

static inline uint8_t
line_lot_file_take_out_inline(uint8_t *file, size_t file_len, uint32_t number)
{
    return line_lot_file_take_out(line_lent_room(file, file_len), file_len,
                                  number);
}

#define line_check_detail line_check_detail_inline
#define line_exchange line_exchange_inline
#define line_play_script line_play_script_inline
#define line_next_days line_next_days_inline
#define line_commission line_commission_inline
#define line_fill_commissions line_fill_commissions_inline
#define line_lot_file_check line_lot_file_check_inline
#define line_lot_file_find line_lot_file_find_inline
#define line_lot_file_add line_lot_file_add_inline
#define line_lot_file_take_out line_lot_file_take_out_inline

#ifdef __cplusplus
}
#endif

#endif
