/* An allocator that refuses one growth to a program that is there already: a shared library, for LD_PRELOAD. A growth is
 * a call of malloc or realloc by the program itself, and not by the C library.
 *
 *     REFUSE_GROWTH=N    the growth of this number is refused, counted from 1
 *     WATCH_BLOCK=N      counted are only growths while a block of just N bytes is held, which the program takes first
 *     REFUSED=FILE       is made when the growth is refused
 */
#define _GNU_SOURCE
#include <errno.h>
#include <fcntl.h>
#include <link.h>
#include <stdatomic.h>
#include <stdint.h>
#include <stdlib.h>
#include <unistd.h>

/* What stands behind the calls. */
void *__libc_malloc(size_t size);
void *__libc_realloc(void *block, size_t size);
void __libc_free(void *block);

static uintptr_t program_start, program_end;
static unsigned long refused_number;
static size_t watch_size;
static const char *refused_file;

static atomic_ulong growths;
static _Atomic(void *) watch_block;

/* The program's own code comes first. */
static int find_program(struct dl_phdr_info *info, size_t size, void *data) {
    (void)size;
    (void)data;
    for (int i = 0; i < info->dlpi_phnum; i++) {
        const ElfW(Phdr) *part = &info->dlpi_phdr[i];
        uintptr_t start = info->dlpi_addr + part->p_vaddr, end = start + part->p_memsz;
        if (part->p_type != PT_LOAD || !(part->p_flags & PF_X))
            continue;
        program_start = program_start == 0 || start < program_start ? start : program_start;
        program_end = end > program_end ? end : program_end;
    }
    return 1;
}

static unsigned long number_of(const char *name) {
    const char *text = getenv(name);
    return text == NULL ? 0 : strtoul(text, NULL, 10);
}

__attribute__((constructor)) static void begin(void) {
    watch_size = number_of("WATCH_BLOCK");
    refused_file = getenv("REFUSED");
    refused_number = number_of("REFUSE_GROWTH");
    dl_iterate_phdr(find_program, NULL);
}

static int is_of_program(const void *caller) {
    return (uintptr_t)caller >= program_start && (uintptr_t)caller < program_end;
}

/* Counts a growth that is watched, and answers whether it is refused. */
static int is_refused(const void *caller) {
    if (!is_of_program(caller) || (watch_size != 0 && atomic_load(&watch_block) == NULL))
        return 0;
    if (atomic_fetch_add(&growths, 1) + 1 != refused_number)
        return 0;
    int file = refused_file == NULL ? -1 : open(refused_file, O_WRONLY | O_CREAT, 0644);
    if (file >= 0)
        close(file);
    errno = ENOMEM;
    return 1;
}

void *malloc(size_t size) {
    const void *caller = __builtin_return_address(0);
    int begins = watch_size != 0 && size == watch_size && is_of_program(caller);
    if (!begins && is_refused(caller))
        return NULL;
    void *block = __libc_malloc(size);
    if (begins)
        atomic_store(&watch_block, block);
    return block;
}

void *realloc(void *block, size_t size) {
    return is_refused(__builtin_return_address(0)) ? NULL : __libc_realloc(block, size);
}

void free(void *block) {
    if (block != NULL && block == atomic_load(&watch_block))
        atomic_store(&watch_block, NULL);
    __libc_free(block);
}
