/* Runs evenings through line_exchange on a thread whose stack has 128 kB, which
   include/line.h says is enough: without documents, and with one that is
   presented. A call that needs more ends the program by a signal. Use:
   stack_test, without arguments. */
#define _POSIX_C_SOURCE 200112L

#include "example.h"
#include "line.h"
#include "same.h"

#include <pthread.h>

#define STACK 131072

static void *evenings(void *unused)
{
    line_evening evening = line_exchange(NULL, 0, NULL, 0, NULL, 0, NULL, 0);
    same("code without documents", evening.code, 0);
    evening = line_exchange(example, DOCUMENT, NULL, 0, NULL, 0, NULL, 0);
    same("code with a document", evening.code, 0);
    same("lots presented", (int64_t)evening.near_side.presented.lots, 1);
    return unused;
}

int main(void)
{
    pthread_attr_t small;
    pthread_t thread;
    if (pthread_attr_init(&small) != 0 || pthread_attr_setstacksize(&small, STACK) != 0
        || pthread_create(&thread, &small, evenings, NULL) != 0
        || pthread_join(thread, NULL) != 0) {
        printf("there is no thread with a stack of %d bytes\n", STACK);
        return 1;
    }
    return counted();
}
