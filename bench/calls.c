/* How long a call through the static library takes: one caller and one port, in one thread, nothing beside them. Each
   row is the time of so many calls of a kind, by their number; the best of three. `bench/calls` builds and runs it. */
#include <stdio.h>
#include <string.h>
#include <time.h>

#include "defnulk_iommufd.h"

enum { PAGE = 4096, CALLS = 100000, LENGTH = 64 };

static struct defnulk_handle caller = DEFNULK_CLOSED, port = DEFNULK_CLOSED;
static unsigned char bytes[LENGTH];

static double now(void) {
    struct timespec time;
    clock_gettime(CLOCK_MONOTONIC, &time);
    return (double)time.tv_sec + (double)time.tv_nsec / 1e9;
}

static void put(unsigned char *at, uint64_t value, size_t size) {
    for (size_t i = 0; i < size; i++)
        at[i] = (unsigned char)(value >> (8 * i));
}

static int ioctl_of(uint32_t number, const void *structure, size_t len) {
    unsigned char room[DEFNULK_LEAST_ROOM];
    size_t written;
    return defnulk_ioctl(&caller, 1, number, structure, len, room, sizeof room, &written);
}

/* IOAS_MAP of the user's page at 0x10000, or IOAS_UNMAP of it, at so many pages. */
static int map(uint64_t page) {
    unsigned char structure[40] = { 40, 0, 0, 0, 7, 0, 0, 0, 1 };
    put(structure + 16, 0x10000, 8);
    put(structure + 24, PAGE, 8);
    put(structure + 32, PAGE * page, 8);
    return ioctl_of(0x3b85, structure, sizeof structure);
}

static int unmap(uint64_t page) {
    unsigned char structure[24] = { 24, 0, 0, 0, 1 };
    put(structure + 8, PAGE * page, 8);
    put(structure + 16, PAGE, 8);
    return ioctl_of(0x3b86, structure, sizeof structure);
}

static int map_and_unmap(void) {
    int status = map(7);
    return status != 0 ? status : unmap(7);
}

static int refused(void) {
    struct defnulk_outcome out;
    return defnulk_close_file(&caller, 9, &out) == -ENOENT ? 0 : 1;
}

static int free_frames(void) {
    struct defnulk_outcome out;
    return defnulk_free_frames(&caller, &out);
}

static int user_read(void) {
    struct defnulk_outcome out;
    return defnulk_user_read(&caller, 1, 0x10000, bytes, sizeof bytes, &out);
}

static int port_read(void) {
    struct defnulk_outcome out;
    return defnulk_port_read(&port, PAGE, bytes, sizeof bytes, &out);
}

static int port_write(void) {
    struct defnulk_outcome out;
    return defnulk_port_write(&port, PAGE, bytes, sizeof bytes, &out);
}

/* A server with a page mapped, and a device attached, but for MAP and UNMAP, which wait for nothing so. */
static int opened(int attaches) {
    static const uint64_t users[] = { 8 };
    static const uint16_t files[] = { 1 };
    static const struct defnulk_device devices[] = { { 8, 39, 0 } };
    struct defnulk_config config = { 0 };
    static const unsigned char alloc[12] = { 12 };
    struct defnulk_outcome out;
    size_t device;
    config.users = users;
    config.user_count = 1;
    config.files = files;
    config.file_count = 1;
    config.devices = devices;
    config.device_count = 1;
    config.pool = 16;
    config.passes = 2;
    config.lanes = 2;
    config.cache = 16;
    return defnulk_open(&config, &caller) || defnulk_port(&caller, &port, &device)
        || defnulk_user_map(&caller, 1, 0x10000, &out) || ioctl_of(0x3b81, alloc, sizeof alloc) || map(1)
        || defnulk_bind(&caller, 1, 1, &out) || (attaches && defnulk_port_attach(&port, 1, &out));
}

/* Nanoseconds of a call, the best of three servers' first calls. */
static double time_of(int (*call)(void), int attaches) {
    double best = 0;
    for (int run = 0; run < 3; run++) {
        if (opened(attaches))
            return -1;
        double start = now();
        for (int i = 0; i < CALLS; i++)
            if (call() != 0)
                return -1;
        double each = (now() - start) / CALLS * 1e9;
        best = run == 0 || each < best ? each : best;
        if (defnulk_close(&port) || defnulk_close(&caller))
            return -1;
    }
    return best;
}

int main(void) {
    static const struct {
        const char *name;
        int (*call)(void);
        int attaches;
    } rows[] = {
        { "a refused event", refused, 1 },
        { "IOAS_MAP and IOAS_UNMAP of a page, no page table", map_and_unmap, 0 },
        { "a port's write of 64 bytes, a hit", port_write, 1 },
        { "a port's read of 64 bytes, a hit", port_read, 1 },
        { "a user's read of 64 bytes", user_read, 1 },
        { "how many frames are free", free_frames, 1 },
    };
    puts("| call | ns |\n|---|---:|");
    for (size_t i = 0; i < sizeof rows / sizeof *rows; i++) {
        double each = time_of(rows[i].call, rows[i].attaches);
        if (each < 0)
            return 1;
        printf("| %s | %.0f |\n", rows[i].name, each);
    }
    return 0;
}
