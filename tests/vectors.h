/* Vectors of the detail check, read from the notation that the head of
   check_vectors.txt explains. */
#ifndef VECTORS_H
#define VECTORS_H

#include <stddef.h>
#include <stdint.h>
#include <stdio.h>

#define VECTOR_BODY_MOST 131072
#define VECTOR_REPRESENTED_MOST 16
#define VECTOR_LINE_MOST 1024

/* What is handed to the check, and the answer wanted of it. */
struct vector {
    uint8_t body[VECTOR_BODY_MOST];
    size_t body_len;
    uint16_t own;
    uint16_t represented[VECTOR_REPRESENTED_MOST];
    size_t represented_len;
    uint64_t code, documents, nominal, commission;
};

struct vector_file {
    FILE *in;
    const char *name;
    unsigned line;               /* number of the line read last */
    char text[VECTOR_LINE_MOST]; /* that line */
};

/* Reads a BODY alone: own 72, none represented, answer all zeros.
   Gives NULL, or what is wrong with the text. */
const char *vector_read_body(struct vector *into, const char *text);

/* Gives 1 if the file could be opened, else says why not and gives 0. */
int vector_open(struct vector_file *file, const char *name);

/* Gives 1 for the next vector, 0 at the end of the file, and -1 for a line
   that cannot be read, after saying where and why. */
int vector_next(struct vector_file *file, struct vector *into);

#endif
