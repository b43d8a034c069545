#define _DEFAULT_SOURCE
#include "unreadable.h"

#include <stdio.h>
#include <stdlib.h>
#include <sys/mman.h>

#define PAGE 4096

static void *pages(size_t count)
{
    void *first = mmap(NULL, count * PAGE, PROT_NONE, MAP_PRIVATE | MAP_ANONYMOUS, -1, 0);
    if (first == MAP_FAILED) {
        perror("mmap");
        exit(2);
    }
    return first;
}

uint8_t *unreadable(void)
{
    return pages(1);
}

uint8_t *before_unreadable(size_t count)
{
    uint8_t *first = pages(2);
    if (count > PAGE || mprotect(first, PAGE, PROT_READ | PROT_WRITE) != 0) {
        perror("mprotect");
        exit(2);
    }
    return first + PAGE - count;
}
