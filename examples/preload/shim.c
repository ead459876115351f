/* A shim for LD_PRELOAD: a program that was written for the kernel's /dev/iommu has a server of this library in its
 * place. Its open, ioctl and close of that device come here, and all others go on to the C library.
 *
 *     LD_PRELOAD=libdefnulk_preload.so program
 *
 * The server is opened with the first descriptor. It has one user, the program, and no devices; each descriptor is a
 * file of its own. What the kernel reads by a pointer in a structure, the shim puts behind the structure, and what it
 * writes by one, the shim writes. A process has its memory, so the user is given the pages of an IOAS_MAP before that
 * is carried out.
 *
 * Where DEFNULK_JOURNAL names a file, the journal of all that was asked is written there at the end, in hex, for
 * `iommufd audit`.
 *
 * Not followed: descriptors that are copied or sent elsewhere, children by fork, and calls from signal handlers. A
 * pointer to memory that isn't there ends the program, where the kernel answers EFAULT.
 */
#define _GNU_SOURCE
#include <dlfcn.h>
#include <errno.h>
#include <fcntl.h>
#include <pthread.h>
#include <sched.h>
#include <stdarg.h>
#include <stdint.h>
#include <stdio.h>
#include <stdlib.h>
#include <string.h>
#include <sys/types.h>

#include "defnulk_iommufd.h"
#include "words.h"

/* A file that was closed is never opened again, so there is one for each descriptor that there ever is. */
enum { USER_ONE = 1, FILES = 1024, DESCRIPTORS = 4096, PAGE = 4096, POOL = 4096 };

/* The largest structure, and room for what is written back: without devices one range is all that can be used. */
enum { LARGEST = 4096, ROOM = 256 };

/* A call of ioctl: the program's structure and how large that says to be, and the bytes that the server is given. */
struct call {
    uint32_t number;
    uint8_t *at;
    uint32_t size;
    uint8_t *bytes;
    size_t len;
    uint8_t room[ROOM];
    size_t written;
};

static pthread_mutex_t lock = PTHREAD_MUTEX_INITIALIZER;
static struct defnulk_handle server = DEFNULK_CLOSED;
static uint16_t files;                /* how many have been opened */
static uint16_t file_of[DESCRIPTORS]; /* the file of a descriptor of ours, or 0 */

/* ---- The C library behind the shim */

static int real_openat(int folder, const char *path, int flags, mode_t mode) {
    int (*function)(int, const char *, int, ...);
    void *found = dlsym(RTLD_NEXT, "openat");
    memcpy(&function, &found, sizeof function);
    return function(folder, path, flags, mode);
}

static int real_ioctl(int descriptor, unsigned long number, void *at) {
    int (*function)(int, unsigned long, ...);
    void *found = dlsym(RTLD_NEXT, "ioctl");
    memcpy(&function, &found, sizeof function);
    return function(descriptor, number, at);
}

static int real_close(int descriptor) {
    int (*function)(int);
    void *found = dlsym(RTLD_NEXT, "close");
    memcpy(&function, &found, sizeof function);
    return function(descriptor);
}

/* ---- Descriptors */

/* Opens the server, where it isn't open yet. */
static int32_t open_server(void) {
    static uint16_t users_of_files[FILES];
    const uint64_t users[] = { POOL };
    for (size_t i = 0; i < FILES; i++)
        users_of_files[i] = USER_ONE;
    const struct defnulk_config config = {
        .users = users, .user_count = 1, .files = users_of_files, .file_count = FILES,
        .pool = POOL, .passes = 1, .lanes = 1, .cache = 1
    };
    int32_t status = defnulk_open(&config, &server);
    return status == -EBUSY ? 0 : status;
}

/* A descriptor for the next file of the server, or a negative errno. */
static int open_file(int flags) {
    int32_t status = open_server();
    if (status != 0)
        return status;
    if (files == FILES)
        return -ENFILE;
    int descriptor = real_openat(AT_FDCWD, "/dev/null", O_RDWR | (flags & O_CLOEXEC), 0);
    if (descriptor < 0)
        return -errno;
    if (descriptor >= DESCRIPTORS) {
        real_close(descriptor);
        return -EMFILE;
    }
    file_of[descriptor] = ++files;
    return descriptor;
}

/* The file of a descriptor, or 0. */
static uint16_t file_at(int descriptor) {
    return descriptor >= 0 && descriptor < DESCRIPTORS ? file_of[descriptor] : 0;
}

static void close_file(int descriptor) {
    struct defnulk_outcome out;
    int32_t status;
    do
        status = defnulk_close_file(&server, file_at(descriptor), &out);
    while (status == DEFNULK_NOT_NOW && sched_yield() == 0);
    file_of[descriptor] = 0;
}

/* ---- Calls of ioctl */

/* Gives the user a page. One that it has stays. */
static int32_t give_page(uint64_t va) {
    struct defnulk_outcome out;
    int32_t status;
    do
        status = defnulk_user_map(&server, USER_ONE, va, &out);
    while (status == DEFNULK_NOT_NOW && sched_yield() == 0);
    return status == -EEXIST ? 0 : status;
}

/* Gives the user the pages of a span, as long as there are frames. What is no span of pages the server refuses. */
static int32_t give_pages(uint64_t va, uint64_t length) {
    int32_t status = 0;
    for (uint64_t done = 0; done < length && status == 0; done += PAGE)
        status = give_page(va + done);
    return status == -ENOMEM ? status : 0;
}

/* The array that a structure has by a pointer: its address and how many ranges it has places for. */
static int32_t find_array(const struct call *call, uint64_t *address, uint32_t *count) {
    struct iommu_ioas_allow_iovas fields;
    *address = 0;
    *count = 0;
    if (call->len < sizeof fields || (call->number != IOMMU_IOAS_ALLOW_IOVAS && call->number != IOMMU_IOAS_IOVA_RANGES))
        return 0;
    memcpy(&fields, call->at, sizeof fields);
    *address = fields.allowed_iovas;
    *count = fields.num_iovas;
    return *address == 0 && *count > 0 ? -EFAULT : 0;
}

/* Takes the bytes of a call: the structure, as far as the server looks at it, and the array that it is to read. */
static int32_t gather(struct call *call) {
    uint64_t address;
    uint32_t count;
    memcpy(&call->size, call->at, sizeof call->size);
    call->len = call->size < sizeof call->size || call->size > LARGEST ? sizeof call->size : call->size;
    int32_t status = find_array(call, &address, &count);
    size_t behind = call->number == IOMMU_IOAS_ALLOW_IOVAS ? count * sizeof(struct iommu_iova_range) : 0;
    if (status != 0)
        return status;
    call->bytes = malloc(call->len + behind);
    if (call->bytes == NULL)
        return -ENOMEM;
    memcpy(call->bytes, call->at, call->len);
    if (behind > 0)
        memcpy(call->bytes + call->len, (const void *)(uintptr_t)address, behind);
    call->len += behind;
    return 0;
}

/* Carries a call out, and leaves in its room what is to be written back. */
static int32_t carry_out(struct call *call, uint16_t file) {
    int32_t status = 0;
    if (call->number == IOMMU_IOAS_MAP && call->len >= sizeof(struct iommu_ioas_map)) {
        struct iommu_ioas_map map;
        memcpy(&map, call->bytes, sizeof map);
        status = give_pages(map.user_va, map.length);
    }
    if (status != 0)
        return status;
    do
        status = defnulk_ioctl(&server, file, call->number, call->bytes, call->len, call->room, ROOM, &call->written);
    while (status == DEFNULK_NOT_NOW && sched_yield() == 0);
    if (call->written > ROOM)
        call->written = ROOM;
    return status;
}

/* Writes a structure back, but for its size, which stays the program's. */
static void write_structure(const struct call *call) {
    const size_t from = sizeof call->size, to = call->written < call->size ? call->written : call->size;
    if (to > from)
        memcpy(call->at + from, call->room + from, to - from);
}

/* Writes back how many ranges there are, and by the program's pointer the ranges. */
static void write_ranges(const struct call *call) {
    struct iommu_ioas_iova_ranges asked, told;
    memcpy(&asked, call->at, sizeof asked);
    memcpy(&told, call->room, sizeof told);
    told.size = asked.size;
    told.allowed_iovas = asked.allowed_iovas;
    memcpy(call->at, &told, sizeof told);
    if (call->written > sizeof told)
        memcpy((void *)(uintptr_t)asked.allowed_iovas, call->room + sizeof told, call->written - sizeof told);
}

/* Writes back what the kernel does. Of IOAS_ALLOW_IOVAS, whose pointer stays, that is nothing. */
static void write_back(const struct call *call) {
    if (call->number == IOMMU_IOAS_IOVA_RANGES && call->written >= sizeof(struct iommu_ioas_iova_ranges))
        write_ranges(call);
    else if (call->number != IOMMU_IOAS_ALLOW_IOVAS)
        write_structure(call);
}

/* Serves a call of ioctl of a file: 0, or a negative errno. */
static int32_t serve(uint16_t file, unsigned long number, uint8_t *at) {
    struct call call = { .number = (uint32_t)number, .at = at };
    if (number < IOMMU_DESTROY || number > IOMMU_HWPT_ALLOC)
        return -ENOTTY;
    if (at == NULL)
        return -EFAULT;
    int32_t status = gather(&call);
    if (status == 0)
        status = carry_out(&call, file);
    write_back(&call);
    free(call.bytes);
    return status;
}

/* ---- What the program calls */

static int open_any(int folder, const char *path, int flags, mode_t mode) {
    if (strcmp(path, "/dev/iommu") != 0)
        return real_openat(folder, path, flags, mode);
    pthread_mutex_lock(&lock);
    int descriptor = open_file(flags);
    pthread_mutex_unlock(&lock);
    if (descriptor < 0) {
        errno = -descriptor;
        return -1;
    }
    return descriptor;
}

/* The mode behind the flags of an open, where these say that there is one. */
static mode_t mode_of(int flags, va_list rest) {
    return (flags & O_CREAT) != 0 || (flags & O_TMPFILE) == O_TMPFILE ? va_arg(rest, mode_t) : 0;
}

int open(const char *path, int flags, ...) {
    va_list rest;
    va_start(rest, flags);
    mode_t mode = mode_of(flags, rest);
    va_end(rest);
    return open_any(AT_FDCWD, path, flags, mode);
}

int open64(const char *path, int flags, ...) {
    va_list rest;
    va_start(rest, flags);
    mode_t mode = mode_of(flags, rest);
    va_end(rest);
    return open_any(AT_FDCWD, path, flags | O_LARGEFILE, mode);
}

int openat(int folder, const char *path, int flags, ...) {
    va_list rest;
    va_start(rest, flags);
    mode_t mode = mode_of(flags, rest);
    va_end(rest);
    return open_any(folder, path, flags, mode);
}

int ioctl(int descriptor, unsigned long number, ...) {
    va_list rest;
    va_start(rest, number);
    void *at = va_arg(rest, void *);
    va_end(rest);
    pthread_mutex_lock(&lock);
    uint16_t file = file_at(descriptor);
    int32_t status = file != 0 ? serve(file, number, at) : 0;
    pthread_mutex_unlock(&lock);
    if (file == 0)
        return real_ioctl(descriptor, number, at);
    if (status == 0)
        return 0;
    errno = -status;
    return -1;
}

int close(int descriptor) {
    pthread_mutex_lock(&lock);
    if (file_at(descriptor) != 0)
        close_file(descriptor);
    pthread_mutex_unlock(&lock);
    return real_close(descriptor);
}

/* ---- The end */

static void write_journal(const char *path) {
    size_t len = 0, written = 0;
    FILE *file = fopen(path, "w");
    uint8_t *journal = defnulk_journal(&server, NULL, 0, &len) == 0 ? malloc(len) : NULL;
    if (file != NULL && journal != NULL && defnulk_journal(&server, journal, len, &written) == 0) {
        for (size_t i = 0; i < len; i++)
            fprintf(file, "%02x", journal[i]);
        fprintf(file, "\n");
    }
    free(journal);
    if (file != NULL)
        fclose(file);
}

__attribute__((destructor)) static void finish(void) {
    const char *path = getenv("DEFNULK_JOURNAL");
    if (path != NULL)
        write_journal(path);
    defnulk_close(&server);
}
