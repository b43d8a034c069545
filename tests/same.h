/* Numbers compared with those wanted, and counted. */
#ifndef SAME_H
#define SAME_H

#include <inttypes.h>
#include <stdint.h>
#include <stdio.h>

#define COUNT(list) (sizeof(list) / sizeof *(list))

static unsigned passed, failed;

static void same(const char *what, int64_t got, int64_t wanted)
{
    if (got == wanted) {
        passed++;
        return;
    }
    failed++;
    printf("%s: %" PRId64 ", not %" PRId64 "\n", what, got, wanted);
}

/* The test's last line, and its exit status. */
static int counted(void)
{
    printf("%u numbers passed, %u failed\n", passed, failed);
    return failed > 0;
}

#endif
