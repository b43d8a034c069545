/* Writes bodies as raw bytes, for a program that reads one from its standard
   input. Use:
     emit_body BODY               the body to standard output
     emit_body VECTORS DIRECTORY  for each vector of own entity 72 with none
                                  represented LINE.body and, as the line that
                                  the program is to write, LINE.want */
#include "vectors.h"

#include <inttypes.h>

static struct vector vector;

static int emit_one(const char *text)
{
    const char *why = vector_read_body(&vector, text);
    if (why != NULL) {
        fprintf(stderr, "%s: %s\n", text, why);
        return 0;
    }
    fwrite(vector.body, 1, vector.body_len, stdout);
    return fflush(stdout) == 0 && !ferror(stdout);
}

static FILE *create(const char *directory, unsigned line, const char *kind)
{
    char name[4096];
    snprintf(name, sizeof name, "%s/%04u.%s", directory, line, kind);
    FILE *out = fopen(name, "wb");
    if (out == NULL)
        perror(name);
    return out;
}

static int emit_files(const struct vector *v, const char *directory, unsigned line)
{
    FILE *body = create(directory, line, "body");
    FILE *want = create(directory, line, "want");
    if (body == NULL || want == NULL)
        return 0;
    size_t written = fwrite(v->body, 1, v->body_len, body);
    int printed = fprintf(want, "%02" PRIu64 " %" PRIu64 " %" PRIu64 " %" PRIu64 "\n",
                          v->code, v->documents, v->nominal, v->commission);
    int closed = fclose(body) == 0;
    return fclose(want) == 0 && closed && written == v->body_len && printed > 0;
}

static int emit_all(const char *name, const char *directory)
{
    static struct vector_file file;
    int got;
    if (!vector_open(&file, name))
        return 0;
    while ((got = vector_next(&file, &vector)) == 1)
        if (vector.own == 72 && vector.represented_len == 0
            && !emit_files(&vector, directory, file.line))
            return 0;
    return got == 0;
}

int main(int argc, char **argv)
{
    int good = 0;
    if (argc == 2)
        good = emit_one(argv[1]);
    else if (argc == 3)
        good = emit_all(argv[1], argv[2]);
    else
        fprintf(stderr, "use: emit_body BODY or emit_body VECTORS DIRECTORY\n");
    return good ? 0 : 1;
}
