/* The allocator of a test, which refuses growths where it is told to. A growth is a call of malloc, calloc or realloc,
   by the library or the program itself, but not by the C library. A program with it is linked with
   -Wl,--wrap=malloc,--wrap=calloc,--wrap=realloc,--wrap=free. It is for one thread. */
#ifndef MEMORY_H
#define MEMORY_H

#include <stddef.h>
#include <stdint.h>

/* Growths are refused only while they are watched, and counted anew from 1 by each of these three: the one of this
   number is refused, or all are, or none is. */
void refuse_growth(uint64_t number);
void refuse_growths(void);
void give_memory(void);

/* Growths are watched from here on, or no more. */
void watch_growths(int watched);

/* Whether one was refused since the count began. */
int growth_was_refused(void);

/* How many were watched since then. */
uint64_t growths_watched(void);

/* How many blocks of memory are in use. */
size_t blocks_in_use(void);

/* Frees a block that the C library took, which isn't one of them. */
void free_uncounted(void *block);

#endif
