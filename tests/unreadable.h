/* Bytes that end the program where one is read or written: they show that a
   call decides by a length alone. */
#ifndef UNREADABLE_H
#define UNREADABLE_H

#include <stddef.h>
#include <stdint.h>

uint8_t *unreadable(void);

/* So many bytes, at most a page, that may be read and written; those behind
   them end the program. */
uint8_t *before_unreadable(size_t count);

#endif
