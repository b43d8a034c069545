/* Calls line_check_detail for every vector of a file and for some cases of
   its own. Use: check_detail_test VECTORS LEAST, where fewer than LEAST
   vectors in the file are a failure. */
#include "line.h"
#include "unreadable.h"
#include "vectors.h"

#include <inttypes.h>
#include <stdio.h>
#include <stdlib.h>
#include <string.h>

#define ANSWER "%02" PRIu64 " %" PRIu64 " %" PRIu64 " %" PRIu64

static struct vector vector;
static unsigned failures;

/* Room before the lent bytes; a multiple of uint16_t's alignment. */
#define BEFORE 16

/* A block that ends with these bytes, at BEFORE: valgrind or a sanitizer
   then sees a read past them. */
static uint8_t *block_ending_in(const void *bytes, size_t count)
{
    uint8_t *block = malloc(BEFORE + count);
    if (block == NULL) {
        perror("malloc");
        exit(2);
    }
    memset(block, 0, BEFORE);
    memcpy(block + BEFORE, bytes, count);
    return block;
}

static void judge(const char *name, const struct vector *v, line_checked got)
{
    if (got.code == v->code && got.documents == v->documents
        && got.nominal == v->nominal && got.commission == v->commission)
        return;
    failures++;
    printf("%s: expected " ANSWER ", got " ANSWER "\n", name,
           v->code, v->documents, v->nominal, v->commission,
           (uint64_t)got.code, got.documents, got.nominal, got.commission);
}

static void try_vector(const char *name, const struct vector *v)
{
    size_t represented_size = v->represented_len * sizeof v->represented[0];
    uint8_t *first = block_ending_in(v->body, v->body_len);
    uint8_t *second = block_ending_in(v->represented, represented_size);
    const uint8_t *body = first + BEFORE;
    const uint16_t *represented = (const uint16_t *)(void *)(second + BEFORE);

    judge(name, v, line_check_detail(body, v->body_len, v->own,
                                     represented, v->represented_len));
    if (memcmp(body, v->body, v->body_len) != 0
        || memcmp(represented, v->represented, represented_size) != 0) {
        failures++;
        printf("%s: lent bytes were changed\n", name);
    }
    free(first);
    free(second);
}

static void want(uint64_t code, uint64_t documents, uint64_t nominal, uint64_t commission)
{
    vector.code = code;
    vector.documents = documents;
    vector.nominal = nominal;
    vector.commission = commission;
}

/* Sets the body of `vector`, which must have this length. */
static void take_body(const char *text, size_t len)
{
    const char *why = vector_read_body(&vector, text);
    if (why != NULL || vector.body_len != len) {
        printf("%s: %s\n", text, why != NULL ? why : "not the length meant");
        exit(2);
    }
}

static void try_lengths(void)
{
    take_body("-", 0);
    want(1, 0, 0, 0);
    try_vector("empty body", &vector);
    take_body("(00513004+$D*4)*50", 10400);
    want(0, 200, 3000000, 6000);
    try_vector("10,400 bytes", &vector);
    take_body("(00513004+$D*4)*50+00", 10401);
    want(1, 0, 0, 0);
    try_vector("10,401 bytes", &vector);
}

static void try_represented(void)
{
    take_body("$EX[36:0009]", 55);
    for (uint16_t i = 0; i < 9; i++)
        vector.represented[i] = (uint16_t)(i + 2);
    vector.represented_len = 8;
    want(0, 1, 15000, 30);
    try_vector("eight represented", &vector);
    vector.represented_len = 9;
    want(24, 0, 0, 0);
    try_vector("nine represented", &vector);
}

/* Own numbers up to the largest and past it, with a body that is good for what
   is left of them in 16 bits, where that is an entity. */
static void try_own(void)
{
    static const struct {
        uint32_t own;
        const char *body;
        uint64_t code;
    } tried[] = {
        { 9999, "$EX[23:9999][36:9999]", 0 },
        { 10000, "$EX[23:9999][36:9999]", 24 },
        { 65535, "$EX[23:9999][36:9999]", 24 },
        { 65536, "$EX[23:0000][36:0000]", 24 },
        { 65608, "$EX", 24 },
        { 4294967295, "$EX", 24 },
    };
    for (size_t i = 0; i < sizeof tried / sizeof tried[0]; i++) {
        char name[32];
        snprintf(name, sizeof name, "own %" PRIu32, tried[i].own);
        take_body(tried[i].body, 55);
        want(tried[i].code, 0, 0, 0);
        if (tried[i].code == 0)
            want(0, 1, 15000, 30);
        judge(name, &vector, line_check_detail(vector.body, 55, tried[i].own, NULL, 0));
    }
}

/* A length that is wrong is answered before a byte is read. */
static void try_lengths_alone(void)
{
    const uint8_t *bytes = unreadable();
    const uint16_t *entities = (const uint16_t *)(const void *)bytes;
    want(24, 0, 0, 0);
    judge("nine unread", &vector, line_check_detail(bytes, 55, 72, entities, 9));
    judge("a hundred million unread",
          &vector, line_check_detail(bytes, 55, 72, entities, 100000000));
    want(1, 0, 0, 0);
    judge("no body", &vector, line_check_detail(bytes, 0, 72, NULL, 0));
    judge("too long an unread body", &vector, line_check_detail(bytes, 10401, 72, NULL, 0));
}

/* What lies past a stated length must not count. */
static void try_past_the_length(void)
{
    static const uint16_t represented[2] = { 1, 73 };
    take_body("$EX", 55);
    want(1, 0, 0, 0);
    judge("one byte past the body",
          &vector, line_check_detail(vector.body, 54, 72, represented, 0));
    take_body("$EX[36:0073]", 55);
    want(6, 0, 0, 0);
    judge("one entity past the represented",
          &vector, line_check_detail(vector.body, 55, 72, represented, 1));
}

/* The paper's example with one half of one byte no digit. */
static void try_non_digits(void)
{
    for (unsigned position = 5; position <= 55; position++) {
        int amount = (position >= 30 && position <= 35)
                  || (position >= 48 && position <= 51);
        for (unsigned low = 0; low <= 1; low++) {
            char text[32];
            snprintf(text, sizeof text, "$EX[%u:%s]", position, low ? "0A" : "A0");
            take_body(text, 55);
            want(amount ? 3 : 1, 0, 0, 0);
            if (position >= 52)
                want(0, 1, 15000, 30);
            try_vector(text, &vector);
        }
    }
}

/* Gives the number of vectors, or -1 if the file cannot be read. */
static long try_file(const char *name)
{
    static struct vector_file file;
    static char where[VECTOR_LINE_MOST + 256];
    long count = 0;
    int got;
    if (!vector_open(&file, name))
        return -1;
    while ((got = vector_next(&file, &vector)) == 1) {
        snprintf(where, sizeof where, "%s:%u: %s", name, file.line, file.text);
        try_vector(where, &vector);
        count++;
    }
    return got < 0 ? -1 : count;
}

int main(int argc, char **argv)
{
    char *end = NULL;
    long least = argc == 3 ? strtol(argv[2], &end, 10) : 0;
    if (least <= 0 || *end != '\0') {
        fprintf(stderr, "use: check_detail_test VECTORS LEAST\n");
        return 2;
    }
    try_lengths();
    try_represented();
    try_own();
    try_lengths_alone();
    try_past_the_length();
    try_non_digits();
    if (failures > 0)
        printf("%u failures before the file\n", failures);
    unsigned before = failures;

    long count = try_file(argv[1]);
    if (count < 0)
        return 2;
    if (count < least)
        printf("%ld vectors are fewer than %ld\n", count, least);
    printf("%ld vectors, %u failed\n", count, failures - before);
    return failures > 0 || count < least;
}
