/* Calls each function with null pointers of length 0, alone and beside bytes.
   It is compiled as C and as C++. Use: null_test, without arguments. */
#include "example.h"
#include "line.h"

#include <stdio.h>
#include <string.h>

#define HEAD 4

static unsigned tried, failed;

static void judge(const char *what, int good)
{
    tried++;
    if (good)
        return;
    failed++;
    printf("%s: another answer\n", what);
}

static void judge_check(const char *what, line_checked got, uint8_t code, uint64_t documents)
{
    judge(what, got.code == code && got.documents == documents
                && got.nominal == documents * 15000 && got.commission == documents * 30);
}

static void try_check(void)
{
    uint8_t body[HEAD + DOCUMENT] = { 0x00, 0x51, 0x30, 0x01 };

    memcpy(body + HEAD, example, DOCUMENT);
    judge_check("none represented", line_check_detail(body, sizeof body, 72, NULL, 0), 0, 1);
    judge_check("no body", line_check_detail(NULL, 0, 72, NULL, 0), 1, 0);
    judge_check("no body, no entity", line_check_detail(NULL, 0, 10000, NULL, 0), 24, 0);
}

/* Both ends close in order, and the near one presented so many documents. */
static void judge_evening(const char *what, line_evening got, uint64_t documents)
{
    judge(what, got.code == 0
                && got.near_side.close == 1 && got.far_side.close == 1
                && got.near_side.presented.documents == documents
                && got.far_side.received.documents == documents
                && got.near_side.received.documents == 0);
}

static void try_exchange(void)
{
    judge_evening("no tray", line_exchange(NULL, 0, NULL, 0, NULL, 0, NULL, 0), 0);
    judge_evening("one tray", line_exchange(example, DOCUMENT, NULL, 0, NULL, 0, NULL, 0), 1);
    judge("a cut tray", line_exchange(NULL, 0, NULL, 0, NULL, 0, example, 50).code == 25);
}

static void judge_play(const char *what, line_played got, uint64_t read, uint64_t written, uint8_t stop)
{
    judge(what, got.read == read && got.written == written && got.stop == stop);
}

static void try_play(void)
{
    static const char start[] = "start A 140328 81 72\n";
    static const char started[] = "start A 00\n";
    const uint8_t *script = (const uint8_t *)start;
    const size_t length = sizeof start - 1, answer = sizeof started - 1;
    uint8_t output[sizeof started] = { 0 };

    judge_play("nothing", line_play_script(NULL, 0, NULL, 0, NULL, 0), 0, 0, 0);
    judge_play("no output", line_play_script(script, length, NULL, 0, NULL, 0), 0, 0, 1);
    judge_play("no wire", line_play_script(script, length, output, answer, NULL, 0), length, answer, 0);
    judge("the answer", memcmp(output, started, answer) == 0);
    judge_play("no script", line_play_script(NULL, 0, output, answer, NULL, 0), 0, 0, 0);
}

static void try_days(void)
{
    static const uint16_t one = 1;
    uint16_t days[LINE_YEAR_DAYS] = { 0 };

    judge("no list", line_next_days(NULL, 0, days, LINE_YEAR_DAYS) == 0 && days[0] == 2);
    judge("no places", line_next_days(&one, 1, NULL, 0) == 23);
    judge("no list, no places", line_next_days(NULL, 0, NULL, 0) == 23);
}

static void judge_commission(const char *what, line_commissioned got, uint8_t code, uint64_t commission)
{
    judge(what, got.code == code && got.commission == commission);
}

static void try_commissions(void)
{
    uint8_t tray[DOCUMENT];
    line_filled none = line_fill_commissions(NULL, 0, NULL, 0), one;

    memcpy(tray, example, DOCUMENT);
    one = line_fill_commissions(NULL, 0, tray, DOCUMENT);
    judge_commission("no tariff, key 0", line_commission(NULL, 0, 0, 1, 5), 0, 5);
    judge_commission("no tariff", line_commission(NULL, 0, 1, 1, 5), 41, 0);
    judge("no tray", none.code == 0 && none.documents == 0);
    judge("a tray, no tariff", one.code == 41 && one.documents == 0);
    judge("and as it was", memcmp(tray, example, DOCUMENT) == 0);
}

static void try_lots(void)
{
    uint8_t file[LINE_LOT_FILE_TABLE + DOCUMENT] = { 0 };
    line_lot_found none = line_lot_file_find(NULL, 0, 7);

    judge("no file to check", line_lot_file_check(NULL, 0) == 25);
    judge("no file to find in", none.code == 25 && none.start == 0 && none.documents == 0);
    judge("no file to add to", line_lot_file_add(NULL, 0, 7, example, DOCUMENT) == 25);
    judge("no tray", line_lot_file_add(file, sizeof file, 7, NULL, 0) == 25);
    judge("no file to take out of", line_lot_file_take_out(NULL, 0, 7) == 25);
    judge("a tray and a file", line_lot_file_add(file, sizeof file, 7, example, DOCUMENT) == 0);
}

int main(void)
{
    try_check();
    try_exchange();
    try_play();
    try_days();
    try_commissions();
    try_lots();
    printf("%u calls, %u failed\n", tried, failed);
    return failed > 0;
}
