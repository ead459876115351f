/* How many reads of 64 bytes are made in a second: by one thread, two and four, each by the port of a device of its
   own, over the pages of one address space in turn. Ports that keep as many pages find each (hits); ports that keep a
   few find none (misses). Beside them callers read the same bytes as the user's memory. Nothing else is called
   meanwhile. Then how long the first read of a port takes, which keeps nothing yet: of a port that was closed and opened
   again each read is such a one. `bench/ports [seconds]` builds and runs it. */
#include <pthread.h>
#include <stdio.h>
#include <stdlib.h>
#include <string.h>
#include <time.h>

#include "defnulk_iommufd.h"

enum { READERS = 4, FRESH = 200, PAGES = 64, FEW = 4, PAGE = 4096, LENGTH = 64 };

/* The user's pages, and where the devices have them. */
static const uint64_t va = 0x100000, first = PAGE;

/* A port of a device of its own, or a caller. */
struct reader {
    struct defnulk_handle handle;
    int is_port;
    uint64_t reads;
    int32_t status;
    char padding[128]; /* two readers share no line of cache */
};

static struct reader readers[FRESH];
static int stop;

static double now(void) {
    struct timespec time;
    clock_gettime(CLOCK_MONOTONIC, &time);
    return (double)time.tv_sec + (double)time.tv_nsec / 1e9;
}

/* Reads page after page, until it is stopped. */
static void *read_on(void *at) {
    struct reader *reader = at;
    unsigned char bytes[LENGTH];
    struct defnulk_outcome out;
    while (!__atomic_load_n(&stop, __ATOMIC_RELAXED) && reader->status == 0) {
        uint64_t offset = PAGE * (reader->reads % PAGES);
        int32_t status = reader->is_port
            ? defnulk_port_read(&reader->handle, first + offset, bytes, sizeof bytes, &out)
            : defnulk_user_read(&reader->handle, 1, va + offset, bytes, sizeof bytes, &out);
        if (status == 0)
            reader->reads++;
        else if (status != DEFNULK_NOT_NOW)
            reader->status = status;
    }
    return NULL;
}

static int call(struct defnulk_handle *caller, uint32_t number, const void *bytes, size_t len) {
    unsigned char room[DEFNULK_LEAST_ROOM];
    size_t written;
    return defnulk_ioctl(caller, 1, number, bytes, len, room, sizeof room, &written);
}

/* An address space with the user's pages, and so many devices bound. */
static int set_up(struct defnulk_handle *caller, int devices) {
    const struct { uint32_t size, flags, id; } alloc = { 12, 0, 0 };
    const struct { uint32_t size, flags, ioas, reserved; uint64_t va, length, iova; } map = {
        40, 7, 1, 0, va, PAGES * PAGE, first
    };
    struct defnulk_outcome out;
    for (uint64_t page = 0; page < PAGES; page++)
        if (defnulk_user_map(caller, 1, va + page * PAGE, &out) != 0)
            return 1;
    if (call(caller, 0x3b81, &alloc, sizeof alloc) != 0 || call(caller, 0x3b85, &map, sizeof map) != 0)
        return 2;
    for (int device = 1; device <= devices; device++)
        if (defnulk_bind(caller, 1, (uint16_t)device, &out) != 0)
            return 3;
    return 0;
}

/* The reader's handle: the port of the next device, attached, or another caller. */
static int open_reader(struct defnulk_handle *caller, struct reader *reader, int is_port) {
    struct defnulk_outcome out;
    size_t device;
    memset(reader, 0, sizeof *reader);
    reader->is_port = is_port;
    if (!is_port)
        return defnulk_share(caller, &reader->handle) != 0;
    return defnulk_port(caller, &reader->handle, &device) != 0 || defnulk_port_attach(&reader->handle, 1, &out) != 0;
}

/* So many threads read for a while: how many reads they make in a second, together. */
static double measure(int threads, double seconds) {
    pthread_t ids[READERS];
    uint64_t reads = 0;
    double start = now();
    stop = 0;
    for (int t = 0; t < threads; t++) {
        readers[t].reads = 0;
        pthread_create(&ids[t], NULL, read_on, &readers[t]);
    }
    while (now() - start < seconds) {
        const struct timespec pause = { 0, 1000000 };
        nanosleep(&pause, NULL);
    }
    __atomic_store_n(&stop, 1, __ATOMIC_RELAXED);
    for (int t = 0; t < threads; t++) {
        pthread_join(ids[t], NULL);
        reads += readers[t].reads;
    }
    return (double)reads / (now() - start);
}

/* Opens a server with so many readers, by ports that keep so many pages or by callers. */
static int open_all(struct defnulk_handle *caller, int count, int is_port, uint16_t lanes, uint16_t cache) {
    const uint64_t users[] = { PAGES };
    const uint16_t files[] = { 1 };
    struct defnulk_device devices[FRESH];
    for (int i = 0; i < count; i++)
        devices[i] = (struct defnulk_device){ (uint16_t)(8 * (i + 1)), 39, 0 };
    const struct defnulk_config config = {
        .users = users, .user_count = 1, .files = files, .file_count = 1, .devices = devices,
        .device_count = (size_t)count, .pool = PAGES + 16, .passes = (uint16_t)(count + 1), .lanes = lanes,
        .cache = cache
    };
    int status = defnulk_open(&config, caller) != 0 ? 4 : set_up(caller, count);
    for (int t = 0; t < count && status == 0; t++)
        status = open_reader(caller, &readers[t], is_port) != 0 ? 5 : 0;
    return status;
}

static int close_all(struct defnulk_handle *caller, int count) {
    for (int t = 0; t < count; t++)
        if (readers[t].status != 0 || defnulk_close(&readers[t].handle) != 0)
            return 6;
    return defnulk_close(caller) != 0 ? 7 : 0;
}

/* Measures by ports that keep so many pages, or by callers, and prints a row. Four threads read first, so that each
   port takes memory for its pages in a thread of its own, as it does in a program that has a thread for each device. */
static int run(const char *name, int is_port, uint16_t cache, double seconds) {
    struct defnulk_handle caller = DEFNULK_CLOSED;
    int status = open_all(&caller, READERS, is_port, READERS + 1, cache);
    if (status != 0)
        return status;
    double four = measure(4, seconds), two = measure(2, seconds), one = measure(1, seconds);
    printf("| %s | %.2f | %.2f | %.2f | %.1f |\n", name, one / 1e6, two / 1e6, four / 1e6, four / one);
    return close_all(&caller, READERS);
}

/* How long the ports of a new server take for a read each, in seconds; below 0 where something fails. */
static double read_once(void) {
    struct defnulk_handle caller = DEFNULK_CLOSED;
    unsigned char bytes[LENGTH];
    struct defnulk_outcome out;
    if (open_all(&caller, FRESH, 1, 1, PAGES) != 0)
        return -1;
    double start = now();
    for (int t = 0; t < FRESH; t++)
        readers[t].status = defnulk_port_read(&readers[t].handle, first + PAGE * (uint64_t)(t % PAGES), bytes,
                                              sizeof bytes, &out);
    double took = now() - start;
    return close_all(&caller, FRESH) != 0 ? -1 : took;
}

/* Prints how long a port's first read takes, the least of some tries. */
static int run_fresh(double seconds) {
    double least = 1, start = now();
    while (now() - start < seconds) {
        double took = read_once();
        if (took < 0)
            return 8;
        least = took < least ? took : least;
    }
    printf("\na read by a port that was just opened: %.0f ns\n", least / FRESH * 1e9);
    return 0;
}

int main(int argc, char **argv) {
    double seconds = argc > 1 ? atof(argv[1]) : 2;
    puts("| million reads a second | 1 thread | 2 threads | 4 threads | 4 to 1 |");
    puts("|---|---:|---:|---:|---:|");
    int status = run("by ports, hits", 1, PAGES, seconds);
    if (status == 0)
        status = run("by ports, misses", 1, FEW, seconds);
    if (status == 0)
        status = run("by callers", 0, FEW, seconds);
    return status != 0 ? status : run_fresh(seconds);
}
