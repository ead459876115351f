#include "memory.h"

#include <errno.h>

/* What stands behind the wrapped calls. */
void *__real_malloc(size_t size);
void *__real_calloc(size_t count, size_t size);
void *__real_realloc(void *block, size_t size);
void __real_free(void *block);

/* The wrapped calls. */
void *__wrap_malloc(size_t size);
void *__wrap_calloc(size_t count, size_t size);
void *__wrap_realloc(void *block, size_t size);
void __wrap_free(void *block);

/* The first growth that is refused, and the last. */
static __thread uint64_t first_refused, last_refused;
static __thread uint64_t watched_so_far;
static __thread int is_watched, was_refused;
static __thread size_t blocks;

static void count_anew(uint64_t first, uint64_t last) {
    first_refused = first;
    last_refused = last;
    watched_so_far = 0;
    was_refused = 0;
}

void refuse_growth(uint64_t number) {
    count_anew(number, number);
}

void refuse_growths(void) {
    count_anew(1, UINT64_MAX);
}

void give_memory(void) {
    count_anew(0, 0);
}

void watch_growths(int watched) {
    is_watched = watched;
}

int growth_was_refused(void) {
    return was_refused;
}

uint64_t growths_watched(void) {
    return watched_so_far;
}

size_t blocks_in_use(void) {
    return blocks;
}

void free_uncounted(void *block) {
    __real_free(block);
}

/* Counts a growth, and answers whether it is refused. */
static int is_refused(void) {
    if (!is_watched)
        return 0;
    watched_so_far++;
    if (watched_so_far < first_refused || watched_so_far > last_refused)
        return 0;
    was_refused = 1;
    errno = ENOMEM;
    return 1;
}

/* Counts a block that is new, if it is one. */
static void *counted(void *block) {
    blocks += block != NULL;
    return block;
}

void *__wrap_malloc(size_t size) {
    return is_refused() ? NULL : counted(__real_malloc(size));
}

void *__wrap_calloc(size_t count, size_t size) {
    return is_refused() ? NULL : counted(__real_calloc(count, size));
}

void *__wrap_realloc(void *block, size_t size) {
    if (is_refused())
        return NULL;
    return block == NULL ? counted(__real_realloc(NULL, size)) : __real_realloc(block, size);
}

void __wrap_free(void *block) {
    blocks -= block != NULL;
    __real_free(block);
}
