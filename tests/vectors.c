/* Reader of the vector notation. Every read_ function over a reader gives 1,
   or 0 once something is wrong. */
#include "vectors.h"

#include <string.h>

#define GROUP_HEAD 4

/* $EX; $D is all but its group head */
static const uint8_t example[55] = {
    0x00, 0x51, 0x30, 0x01,
    0x00, 0x00, 0x00, 0x00, 0x01,       /* reference */
    0x00, 0x00,                         /* identification */
    0x02, 0x43, 0x41, 0x57,             /* number */
    0x14, 0x03,                         /* day and month */
    0x00, 0x81, 0x01, 0x10, 0x28,       /* taker, branch, province */
    0x00, 0x72, 0x08,                   /* receiving entity, province */
    0x00, 0x81, 0x01, 0x10,             /* claims entity and branch */
    0x00, 0x00, 0x00, 0x01, 0x50, 0x00, /* nominal */
    0x00, 0x72, 0x01, 0x10,             /* drawee, branch */
    0x00, 0x00, 0x12, 0x34, 0x56,       /* account */
    0x01,                               /* truncation */
    0x00, 0x01,                         /* tariff key */
    0x00, 0x00, 0x00, 0x30,             /* commission */
    0x00, 0x00, 0x00, 0x00              /* key */
};

struct reader {
    const char *at;    /* next character */
    const char *wrong; /* NULL as long as all is well */
    struct vector *into;
};

static int fail(struct reader *r, const char *why)
{
    r->wrong = why;
    return 0;
}

static int take(struct reader *r, const char *word)
{
    size_t len = strlen(word);
    if (strncmp(r->at, word, len) != 0)
        return 0;
    r->at += len;
    return 1;
}

static void skip_blanks(struct reader *r)
{
    r->at += strspn(r->at, " \t");
}

static int read_gap(struct reader *r)
{
    if (*r->at != ' ' && *r->at != '\t')
        return fail(r, "a blank is missing");
    skip_blanks(r);
    return 1;
}

/* `most` is at least 9. */
static int read_number(struct reader *r, uint64_t most, uint64_t *number)
{
    if (*r->at < '0' || *r->at > '9')
        return fail(r, "a number is missing");
    *number = 0;
    for (; *r->at >= '0' && *r->at <= '9'; r->at++) {
        uint64_t digit = (uint64_t)(*r->at - '0');
        if (*number > (most - digit) / 10)
            return fail(r, "a number is too large");
        *number = *number * 10 + digit;
    }
    return 1;
}

static int half_byte(char c)
{
    static const char digits[] = "0123456789ABCDEF0123456789abcdef";
    const char *found = c == '\0' ? NULL : strchr(digits, c);
    return found == NULL ? -1 : (int)((found - digits) % 16);
}

static int read_byte(struct reader *r, uint8_t *byte)
{
    int high = half_byte(r->at[0]);
    int low = high < 0 ? -1 : half_byte(r->at[1]);
    if (low < 0)
        return fail(r, "two hexadecimal digits are missing");
    *byte = (uint8_t)(high * 16 + low);
    r->at += 2;
    return 1;
}

static int put(struct reader *r, const uint8_t *bytes, size_t count)
{
    struct vector *v = r->into;
    if (count > VECTOR_BODY_MOST - v->body_len)
        return fail(r, "the body is too long");
    memcpy(v->body + v->body_len, bytes, count);
    v->body_len += count;
    return 1;
}

static int read_hex(struct reader *r)
{
    uint8_t byte;
    do {
        if (!read_byte(r, &byte) || !put(r, &byte, 1))
            return 0;
    } while (half_byte(*r->at) >= 0);
    return 1;
}

/* The three suffixes change the term that begins at `start` of the body. */

static int read_patch(struct reader *r, size_t start)
{
    uint64_t position;
    if (!read_number(r, VECTOR_BODY_MOST, &position))
        return 0;
    if (position == 0 || !take(r, ":"))
        return fail(r, "[position:hex] is meant here");
    size_t at = start + (size_t)position - 1;
    do {
        if (at >= r->into->body_len)
            return fail(r, "[position:hex] goes past the term");
        if (!read_byte(r, &r->into->body[at++]))
            return 0;
    } while (!take(r, "]"));
    return 1;
}

static int read_cut(struct reader *r, size_t start)
{
    uint64_t keep;
    if (!read_number(r, VECTOR_BODY_MOST, &keep))
        return 0;
    if (keep > r->into->body_len - start)
        return fail(r, "<k is longer than the term");
    r->into->body_len = start + (size_t)keep;
    return 1;
}

static int read_repeat(struct reader *r, size_t start)
{
    uint64_t times;
    size_t len = r->into->body_len - start;
    if (!read_number(r, VECTOR_BODY_MOST, &times))
        return 0;
    if (times == 0)
        return fail(r, "*k is at least *1");
    while (--times > 0)
        if (!put(r, r->into->body + start, len))
            return 0;
    return 1;
}

static int read_body(struct reader *r);

static int read_bare_term(struct reader *r)
{
    if (take(r, "$EX"))
        return put(r, example, sizeof example);
    if (take(r, "$D"))
        return put(r, example + GROUP_HEAD, sizeof example - GROUP_HEAD);
    if (take(r, "-"))
        return 1;
    if (take(r, "("))
        return read_body(r) && (take(r, ")") || fail(r, "')' is missing"));
    if (half_byte(*r->at) < 0)
        return fail(r, "a term is missing");
    return read_hex(r);
}

static int read_term(struct reader *r)
{
    size_t start = r->into->body_len;
    int good = read_bare_term(r);
    while (good) {
        if (take(r, "["))
            good = read_patch(r, start);
        else if (take(r, "<"))
            good = read_cut(r, start);
        else if (take(r, "*"))
            good = read_repeat(r, start);
        else
            break;
    }
    return good;
}

static int read_body(struct reader *r)
{
    do {
        if (!read_term(r))
            return 0;
    } while (take(r, "+"));
    return 1;
}

static int read_entity(struct reader *r, uint16_t *entity)
{
    uint64_t number;
    if (!read_number(r, UINT16_MAX, &number))
        return 0;
    *entity = (uint16_t)number;
    return read_gap(r);
}

/* Own and represented entities, up to and with the arrow. */
static int read_entities(struct reader *r)
{
    struct vector *v = r->into;
    if (take(r, "=>"))
        return 1;
    if (!read_entity(r, &v->own))
        return 0;
    while (!take(r, "=>")) {
        if (v->represented_len == VECTOR_REPRESENTED_MOST)
            return fail(r, "too many entities");
        if (!read_entity(r, &v->represented[v->represented_len++]))
            return 0;
    }
    return 1;
}

static int read_answer(struct reader *r)
{
    struct vector *v = r->into;
    return read_gap(r) && read_number(r, UINT8_MAX, &v->code)
        && read_gap(r) && read_number(r, UINT64_MAX, &v->documents)
        && read_gap(r) && read_number(r, UINT64_MAX, &v->nominal)
        && read_gap(r) && read_number(r, UINT64_MAX, &v->commission);
}

static int read_end(struct reader *r)
{
    skip_blanks(r);
    return *r->at == '\0' || *r->at == '#' || fail(r, "the line should end here");
}

static struct reader begin(struct vector *into, const char *text)
{
    struct reader r = { text, NULL, into };
    into->body_len = 0;
    into->own = 72;
    into->represented_len = 0;
    into->code = into->documents = into->nominal = into->commission = 0;
    return r;
}

const char *vector_read_body(struct vector *into, const char *text)
{
    struct reader r = begin(into, text);
    if (read_body(&r) && *r.at != '\0')
        fail(&r, "the body should end here");
    return r.wrong;
}

static const char *read_line(struct vector *into, const char *text)
{
    struct reader r = begin(into, text);
    if (!take(&r, "check"))
        return "the line should begin with check";
    if (read_gap(&r) && read_body(&r) && read_gap(&r) && read_entities(&r)
        && read_answer(&r))
        read_end(&r);
    return r.wrong;
}

int vector_open(struct vector_file *file, const char *name)
{
    file->in = fopen(name, "r");
    file->name = name;
    file->line = 0;
    if (file->in == NULL)
        perror(name);
    return file->in != NULL;
}

/* As vector_next, for a line of any kind. */
static int next_line(struct vector_file *file)
{
    if (fgets(file->text, sizeof file->text, file->in) == NULL) {
        int broken = ferror(file->in);
        if (broken)
            perror(file->name);
        fclose(file->in);
        return broken ? -1 : 0;
    }
    file->line++;
    size_t len = strcspn(file->text, "\n");
    if (file->text[len] == '\0' && !feof(file->in)) {
        fprintf(stderr, "%s:%u: the line is too long\n", file->name, file->line);
        return -1;
    }
    file->text[len] = '\0';
    return 1;
}

int vector_next(struct vector_file *file, struct vector *into)
{
    int got;
    while ((got = next_line(file)) == 1) {
        const char *text = file->text + strspn(file->text, " \t");
        if (*text == '\0' || *text == '#')
            continue;
        const char *why = read_line(into, text);
        if (why == NULL)
            return 1;
        fprintf(stderr, "%s:%u: %s\n", file->name, file->line, why);
        return -1;
    }
    return got;
}
