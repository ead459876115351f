/* The limits of what a server is opened with, asked with memory and without: want of memory is told of none that is
   outside them. And a port keeps the pages that it read last, as many as its cache has. It prints nothing, unless
   something is wrong. `tests/c/run` builds it. */
#include <stdio.h>
#include <stdlib.h>

#include "calls.h"
#include "memory.h"

enum { USER = 1, DEVICE = 1, SPACE_ID = 1, VA = 0x10000, BYTE = 0xb7, MANY = 0xffff };

static void expect(const char *what, int64_t found, int64_t wanted) {
    if (found != wanted) {
        fprintf(stderr, "%s: %lld, and %lld was wanted\n", what, (long long)found, (long long)wanted);
        exit(1);
    }
}

static uint64_t users[256];
static uint16_t files[1025];
static struct defnulk_device devices[257];
static struct defnulk_reserved spans[17];

/* Each user may pin 8 pages, each file is the first user's, each device has 39 bits, and the first one reserves a page
   out of two. */
static void fill_arrays(void) {
    for (size_t i = 0; i < sizeof users / sizeof *users; i++)
        users[i] = 8;
    for (size_t i = 0; i < sizeof files / sizeof *files; i++)
        files[i] = USER;
    for (size_t i = 0; i < sizeof devices / sizeof *devices; i++)
        devices[i] = (struct defnulk_device){ (uint16_t)(0x10 + i), 39, 1 };
    for (size_t i = 0; i < sizeof spans / sizeof *spans; i++)
        spans[i] = (struct defnulk_reserved){ 2 * i * PAGE, 2 * i * PAGE + PAGE - 1, DEVICE };
}

/* How many there are of each. */
struct counts {
    const char *what;
    uint32_t pool;
    uint16_t users, files, devices, spans, passes, lanes, cache;
};

static struct defnulk_config config_of(const struct counts *counts) {
    return (struct defnulk_config){
        .users = users, .user_count = counts->users, .files = files, .file_count = counts->files,
        .devices = devices, .device_count = counts->devices, .reserved = spans, .reserved_count = counts->spans,
        .pool = counts->pool, .passes = counts->passes, .lanes = counts->lanes, .cache = counts->cache
    };
}

static const struct counts least = { "the least", 1, 1, 1, 0, 0, 1, 1, 1 };

/* Whether a server is opened or refused, as is wanted; one that is opened answers. */
static void test_open(const struct counts *counts, int32_t wanted) {
    struct defnulk_config config = config_of(counts);
    struct defnulk_handle caller = DEFNULK_CLOSED;
    struct defnulk_outcome out;
    refuse_growths();
    watch_growths(1);
    int32_t without = defnulk_open(&config, &caller);
    watch_growths(0);
    give_memory();
    expect(counts->what, without, wanted == 0 ? -ENOMEM : wanted);
    expect(counts->what, defnulk_open(&config, &caller), wanted);
    if (wanted == 0) {
        expect("free frames", defnulk_free_frames(&caller, &out), 0);
        expect("how many", (int64_t)out.value, counts->pool);
    }
    expect("close", defnulk_close(&caller), wanted == 0 ? 0 : -EBADF);
}

/* One of the counts is just outside its limits, or far. */
static void test_counts(void) {
    static const struct counts most = { "the most", 4096, 255, 1024, 256, 16, 1024, 64, 4096 };
    static const struct counts outside[] = {
        { "no frame", 0, 1, 1, 1, 1, 2, 1, 1 },          { "4,097 frames", 4097, 1, 1, 1, 1, 2, 1, 1 },
        { "no user", 64, 0, 1, 1, 1, 2, 1, 1 },          { "256 users", 64, 256, 1, 1, 1, 2, 1, 1 },
        { "no file", 64, 1, 0, 1, 1, 2, 1, 1 },          { "1,025 files", 64, 1, 1025, 1, 1, 2, 1, 1 },
        { "257 devices", 64, 1, 1, 257, 1, 2, 1, 1 },    { "17 spans", 64, 1, 1, 1, 17, 2, 1, 1 },
        { "no pass", 64, 1, 1, 1, 1, 0, 1, 1 },          { "1,025 passes", 64, 1, 1, 1, 1, 1025, 1, 1 },
        { "no lane", 64, 1, 1, 1, 1, 2, 0, 1 },          { "65 lanes", 64, 1, 1, 1, 1, 2, 65, 1 },
        { "no page", 64, 1, 1, 1, 1, 2, 1, 0 },          { "4,097 pages", 64, 1, 1, 1, 1, 2, 1, 4097 },
        { "many lanes", 64, 1, 1, 1, 1, 2, MANY, 4097 }, { "many pages", 64, 1, 1, 1, 1, 2, 64, MANY },
        { "neither", 64, 1, 1, 1, 1, 2, 0, 0 },          { "spans of none", 64, 1, 1, 0, 1, 2, 1, 1 },
    };
    test_open(&least, 0);
    test_open(&most, 0);
    for (size_t i = 0; i < sizeof outside / sizeof *outside; i++)
        test_open(&outside[i], -EINVAL);
}

static void test_span(const char *what, uint64_t first, uint64_t last, uint16_t device, int32_t wanted) {
    struct counts counts = { what, 64, 1, 1, 1, 1, 2, 1, 1 };
    spans[0] = (struct defnulk_reserved){ first, last, device };
    test_open(&counts, wanted);
    fill_arrays();
}

/* One of the items is none that there is. */
static void test_items(void) {
    struct counts user = { "a file of no user", 64, 1, 2, 1, 1, 2, 1, 1 }, width = user;
    files[1] = 2;
    test_open(&user, -EINVAL);
    files[1] = 0;
    test_open(&user, -EINVAL);
    fill_arrays();
    width.what = "40 bits";
    devices[0].width = 40;
    test_open(&width, -EINVAL);
    fill_arrays();
    struct counts widths = { "devices of 48 and 57 bits", 64, 1, 1, 3, 0, 2, 1, 1 };
    devices[1].width = 48;
    devices[2].width = 57;
    test_open(&widths, 0);
    fill_arrays();
    struct counts shares = { "17 spans of two devices", 64, 1, 1, 2, 17, 2, 1, 1 };
    spans[16].device = 2;
    test_open(&shares, 0);
    fill_arrays();
    test_span("the last page", UINT64_MAX - PAGE + 1, UINT64_MAX, 1, 0);
    test_span("a span of device 0", 0, PAGE - 1, 0, -EINVAL);
    test_span("a span of device 2", 0, PAGE - 1, 2, -EINVAL);
    test_span("its last above its first", PAGE, PAGE - 1, 1, -EINVAL);
    test_span("its first within a page", 1, PAGE - 1, 1, -EINVAL);
    test_span("its last within a page", 0, PAGE, 1, -EINVAL);
}

/* ---- The pages that were read last */

/* Page 1 is the user's, with a byte of its own, and pages 2 to the last are copies of it, each an area; the device is
   attached. */
static void map_pages(struct defnulk_handle *caller, struct defnulk_handle *port, uint64_t last) {
    static const unsigned char byte[] = { BYTE };
    struct defnulk_outcome out;
    size_t device;
    expect("user's page", defnulk_user_map(caller, USER, VA, &out), 0);
    expect("its byte", defnulk_user_write(caller, USER, VA, byte, sizeof byte, &out), 0);
    expect("address space", make_space(caller), 0);
    expect("map", map_page(caller, VA, PAGE), 0);
    for (uint64_t page = 2; page <= last; page++)
        expect("copy", copy_page(caller, page * PAGE, PAGE), 0);
    expect("port", defnulk_port(caller, port, &device), 0);
    expect("bind", defnulk_bind(caller, 1, DEVICE, &out), 0);
    expect("attach", defnulk_port_attach(port, SPACE_ID, &out), 0);
}

static void read_page(struct defnulk_handle *port, uint64_t page, int is_denied) {
    struct defnulk_outcome out;
    unsigned char byte = 0;
    expect("read", defnulk_port_read(port, page * PAGE, &byte, 1, &out), is_denied ? -EFAULT : 0);
    expect("reason", out.fault, is_denied ? 6 : 0);
    expect("byte", byte, is_denied ? 0 : BYTE);
}

/* Reads pages 1 to the last, of which just this one is denied. */
static void read_pages(struct defnulk_handle *port, uint64_t last, uint64_t denied) {
    for (uint64_t page = 1; page <= last; page++)
        read_page(port, page, page == denied);
}

/* An UNMAP of all pages waits, while the port reads all but one; and it is done after a flush. */
static void unmap_pages(struct defnulk_handle *caller, struct defnulk_handle *port, uint64_t last, uint64_t denied) {
    uint64_t length = last * PAGE;
    expect("unmap has to wait", unmap_bytes(caller, PAGE, &length), -EAGAIN);
    read_pages(port, last, denied);
    expect("flush", flush_port(port), 0);
    read_page(port, last, 1);
    expect("unmap", unmap_bytes(caller, PAGE, &length), 0);
    expect("bytes", (int64_t)length, (int64_t)(last * PAGE));
}

/* A port reads as many pages as it keeps, the first of them once more, and then one page more. While all are leaving,
   it goes on reading all but the one that it had read least recently. */
static void test_recent(uint16_t lanes, uint16_t cache) {
    struct defnulk_handle caller = DEFNULK_CLOSED, port = DEFNULK_CLOSED;
    uint64_t last = cache + 1u;
    struct counts counts = { "a server of 64 frames", 64, 1, 1, 1, 0, 2, lanes, cache };
    struct defnulk_config config = config_of(&counts);
    expect(counts.what, defnulk_open(&config, &caller), 0);
    map_pages(&caller, &port, last);
    read_pages(&port, cache, 0);
    read_page(&port, 1, 0);
    read_page(&port, last, 0);
    unmap_pages(&caller, &port, last, cache < 2 ? cache : 2);
    expect("close the port", defnulk_close(&port), 0);
    expect("close the server", defnulk_close(&caller), 0);
}

int main(void) {
    fill_arrays();
    test_counts();
    test_items();
    test_recent(1, 1);
    test_recent(2, 2);
    test_recent(64, 4096);
    return 0;
}
