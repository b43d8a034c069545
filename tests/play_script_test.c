/* Plays a short script through line_play_script, with enough room for its
   answers and with too little, and with no memory for written bytes. Use:
   play_script_test, without arguments. */
#include "line.h"
#include "unreadable.h"

#include <inttypes.h>
#include <stdio.h>
#include <stdlib.h>
#include <string.h>

#define WIRE 2097152

/* What lies in the output before a call. */
#define UNTOUCHED 0xA5

/* Room before the lent bytes, so that no block is empty. */
#define BEFORE 16

/* A line of a script with its answer, which is empty if it is passed over. */
struct step {
    const char *line;
    const char *answer;
};

#define HEADER "01140328008100720000000100510121000000140328008100720001000700"
#define REPLY "02140328008100720000000100518600"
#define FRESH " presented 0 0 0 0 received 0 0 0 0 open 0 0 none\n"

/* The last line is not finished. */
static const struct step evening[] = {
    { "# an evening's first messages\n", "" },
    { "start A 140328 81 72\n", "start A 00\n" },
    { "start B 140328 72 81\n", "start B 00\n" },
    { "\n", "" },
    { "header A 75600 21000000 1 7\n", "header A 00 @1 " HEADER "\n" },
    { "receive B 75600 @1\n", "receive B 00 @2 " REPLY "\n" },
    { "receive B 75600 @3\n", "bad line\n" },
    { "reply A 75600 @2\n", "reply A 00\n" },
    { "report A\n", "report A" FRESH },
    { "\xFF\n", "bad line\n" },
    { "report B", "report B" FRESH },
    { NULL, NULL },
};

/* For a wire of length 0: numbers go on, and their bytes are forgotten. */
static const struct step forgotten[] = {
    { "start A 140328 81 72\n", "start A 00\n" },
    { "start B 140328 72 81\n", "start B 00\n" },
    { "header A 75600 21000000 1 7\n", "header A 00 @1 " HEADER "\n" },
    { "receive B 75600 @1\n", "bad line\n" },
    { "receive B 75600 " HEADER "\n", "receive B 00 @2 " REPLY "\n" },
    { "reply A 75600 @2\n", "bad line\n" },
    { "reply A 75600 " REPLY "\n", "reply A 00\n" },
    { NULL, NULL },
};

static const struct step nothing[] = {
    { NULL, NULL },
};

static unsigned plays;
static unsigned failures;

/* A block with room for so many bytes at BEFORE and none after them:
   valgrind or a sanitizer then sees an access past them. */
static uint8_t *block_of(size_t count)
{
    uint8_t *block = malloc(BEFORE + count);
    if (block == NULL) {
        perror("malloc");
        exit(2);
    }
    memset(block, UNTOUCHED, BEFORE + count);
    return block;
}

/* All lines and all answers; each text has its length beside it. */
struct texts {
    char script[1000];
    char answers[1000];
    size_t script_len;
    size_t answers_len;
};

static void append(char *text, size_t *len, const char *more)
{
    size_t count = strlen(more);
    if (*len + count > 1000) {
        printf("the texts are longer than their room\n");
        exit(2);
    }
    memcpy(text + *len, more, count);
    *len += count;
}

static struct texts texts_of(const struct step *steps)
{
    static const struct texts empty;
    struct texts texts = empty;
    for (; steps->line != NULL; steps++) {
        append(texts.script, &texts.script_len, steps->line);
        append(texts.answers, &texts.answers_len, steps->answer);
    }
    return texts;
}

/* What a call with so much room should give. */
static line_played expected(const struct step *steps, size_t output_len)
{
    line_played played = { 0, 0, 0 };
    for (; steps->line != NULL; steps++) {
        size_t answer_len = strlen(steps->answer);
        if (answer_len > output_len - played.written) {
            played.stop = 1;
            break;
        }
        played.read += strlen(steps->line);
        played.written += answer_len;
    }
    return played;
}

static void fail(const char *name, size_t output_len, const char *what)
{
    failures++;
    printf("%s, output of %zu bytes: %s\n", name, output_len, what);
}

static void judge(const char *name, size_t output_len, line_played want, line_played got)
{
    if (got.read == want.read && got.written == want.written && got.stop == want.stop)
        return;
    failures++;
    printf("%s, output of %zu bytes: expected read %" PRIu64 " written %" PRIu64 " stop %u,"
           " got read %" PRIu64 " written %" PRIu64 " stop %u\n",
           name, output_len, want.read, want.written, want.stop,
           got.read, got.written, got.stop);
}

static void try_play(const char *name, const struct step *steps, size_t output_len, size_t wire_len)
{
    struct texts texts = texts_of(steps);
    line_played want = expected(steps, output_len);
    uint8_t *script = block_of(texts.script_len);
    uint8_t *output = block_of(output_len);
    uint8_t *wire = block_of(wire_len);
    memcpy(script + BEFORE, texts.script, texts.script_len);

    judge(name, output_len, want,
          line_play_script(script + BEFORE, texts.script_len, output + BEFORE, output_len,
                           wire + BEFORE, wire_len));
    if (memcmp(output + BEFORE, texts.answers, want.written) != 0)
        fail(name, output_len, "other answers");
    for (size_t i = want.written; i < output_len; i++)
        if (output[BEFORE + i] != UNTOUCHED) {
            fail(name, output_len, "bytes past the answers were changed");
            break;
        }
    if (memcmp(script + BEFORE, texts.script, texts.script_len) != 0)
        fail(name, output_len, "the script was changed");
    plays++;
    free(script);
    free(output);
    free(wire);
}

/* A wire that is a byte too short is left alone. */
static void try_short_wire(void)
{
    struct texts texts = texts_of(forgotten);
    uint8_t output[sizeof texts.answers];

    judge("short wire", texts.answers_len, expected(forgotten, texts.answers_len),
          line_play_script((const uint8_t *)texts.script, texts.script_len,
                           output, texts.answers_len, unreadable(), WIRE - 1));
    if (memcmp(output, texts.answers, texts.answers_len) != 0)
        fail("short wire", texts.answers_len, "other answers");
    plays++;
}

int main(void)
{
    size_t whole = texts_of(evening).answers_len;
    for (size_t output_len = 0; output_len <= whole + 2; output_len++)
        try_play("evening", evening, output_len, WIRE);
    try_play("long output", evening, 100000, WIRE);
    try_play("no wire", forgotten, texts_of(forgotten).answers_len, 0);
    try_short_wire();
    try_play("empty script", nothing, 10, WIRE);
    try_play("empty script, output and wire", nothing, 0, 0);
    printf("%u plays, %u failed\n", plays, failures);
    return failures > 0;
}
