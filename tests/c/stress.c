/* Callers map and unmap pages of one address space, each in a thread of its own, while devices read and write there by
   their ports, each in a thread of its own, and flush now and then. What a device reads has to be what the user wrote
   into that page, whoever unmaps it meanwhile. At the end a line `journal <hex>` stands on standard output, for an
   audit. `tests/c/run` builds it. */
#include <pthread.h>
#include <stdio.h>
#include <string.h>
#include <time.h>

#include "calls.h"

enum { MAPPERS = 2, DEVICES = 3, EACH = 4, ROUNDS = 100, LENGTH = 16, WRITTEN_AT = 1024 };

/* The user's pages, and where an address space has them: page k of mapper m is page m * EACH + k of both. */
static const uint64_t va = 0x10000, first = PAGE;

static struct defnulk_handle callers[MAPPERS], ports[DEVICES];
static int mappers_left = MAPPERS;
static int failures;

static void fail(const char *what, int32_t status) {
    fprintf(stderr, "%s: %d\n", what, (int)status);
    __atomic_add_fetch(&failures, 1, __ATOMIC_RELAXED);
}

/* Waits a little: what is asked anew at once makes a record each time. */
static void pause_a_little(void) {
    const struct timespec pause = { 0, 50000 };
    nanosleep(&pause, NULL);
}

static void *map_on(void *at) {
    struct defnulk_handle *caller = at;
    uint64_t mine = (uint64_t)(caller - callers) * EACH;
    for (int round = 0; round < ROUNDS; round++) {
        uint64_t page = mine + (uint64_t)(round % EACH);
        uint64_t length = PAGE;
        int32_t status = map_page(caller, va + PAGE * page, first + PAGE * page);
        if (status != 0)
            fail("map", status);
        while ((status = unmap_bytes(caller, first + PAGE * page, &length)) == -EAGAIN || status == -EDEADLK)
            pause_a_little();
        if (status != 0)
            fail("unmap", status);
    }
    __atomic_sub_fetch(&mappers_left, 1, __ATOMIC_RELEASE);
    return NULL;
}

/* A device's access to this page: it passes, and what it read is the user's, or it is denied. */
static void access_page(struct defnulk_handle *port, uint64_t page, int writes) {
    unsigned char bytes[LENGTH];
    struct defnulk_outcome out;
    int32_t status;
    memset(bytes, 0, sizeof bytes);
    do
        status = writes ? defnulk_port_write(port, first + PAGE * page + WRITTEN_AT, bytes, 1, &out)
                        : defnulk_port_read(port, first + PAGE * page, bytes, sizeof bytes, &out);
    while (status == DEFNULK_NOT_NOW);
    if (status == -EFAULT && out.fault == (writes ? 5 : 6))
        return;
    if (status != 0)
        fail("access", status);
    for (int i = 0; !writes && i < LENGTH; i++)
        if (bytes[i] != page + 1)
            fail("another page's byte", bytes[i]);
}

static void *access_on(void *at) {
    struct defnulk_handle *port = at;
    uint64_t turn = (uint64_t)(port - ports);
    while (__atomic_load_n(&mappers_left, __ATOMIC_ACQUIRE) > 0) {
        access_page(port, turn % (MAPPERS * EACH), turn % 9 == 0);
        if (++turn % 64 == 0) {
            int32_t status = flush_port(port);
            if (status != 0)
                fail("flush", status);
            pause_a_little();
        }
    }
    return NULL;
}

/* A server whose user has a page for each of its addresses, filled with its number from 1 on, and an address space. */
static int32_t opened(void) {
    static const uint64_t users[] = { MAPPERS * EACH };
    static const uint16_t files[] = { 1 };
    static const struct defnulk_device devices[DEVICES] = { { 8, 39, 0 }, { 16, 39, 0 }, { 24, 48, 1 } };
    const struct defnulk_config config = {
        .users = users, .user_count = 1, .files = files, .file_count = 1, .devices = devices, .device_count = DEVICES,
        .pool = 64, .passes = MAPPERS + DEVICES, .lanes = MAPPERS + DEVICES, .cache = 4
    };
    struct defnulk_outcome out;
    unsigned char bytes[LENGTH];
    int32_t status = defnulk_open(&config, &callers[0]);
    for (uint64_t page = 0; page < MAPPERS * EACH && status == 0; page++) {
        memset(bytes, (int)page + 1, sizeof bytes);
        status = defnulk_user_map(&callers[0], 1, va + PAGE * page, &out);
        if (status == 0)
            status = defnulk_user_write(&callers[0], 1, va + PAGE * page, bytes, sizeof bytes, &out);
    }
    return status != 0 ? status : make_space(&callers[0]);
}

/* Hands the ports of all devices out, bound and attached, and a handle to each other mapper. */
static int32_t given(void) {
    struct defnulk_outcome out;
    int32_t status = 0;
    for (int i = DEVICES - 1; i >= 0 && status == 0; i--) {
        size_t device;
        status = defnulk_port(&callers[0], &ports[i], &device);
        if (status == 0)
            status = defnulk_bind(&callers[0], 1, (uint16_t)device, &out);
        if (status == 0)
            status = defnulk_port_attach(&ports[i], 1, &out);
    }
    for (int i = 1; i < MAPPERS && status == 0; i++)
        status = defnulk_share(&callers[0], &callers[i]);
    return status;
}

static void run_threads(void) {
    pthread_t mapping[MAPPERS], working[DEVICES];
    for (int i = 0; i < MAPPERS; i++)
        pthread_create(&mapping[i], NULL, map_on, &callers[i]);
    for (int i = 0; i < DEVICES; i++)
        pthread_create(&working[i], NULL, access_on, &ports[i]);
    for (int i = 0; i < DEVICES; i++)
        pthread_join(working[i], NULL);
    for (int i = 0; i < MAPPERS; i++)
        pthread_join(mapping[i], NULL);
}

int main(void) {
    int32_t status = opened();
    if (status == 0)
        status = given();
    if (status == 0) {
        run_threads();
        status = put_journal(&callers[0]);
    }
    for (int i = 0; i < DEVICES; i++)
        defnulk_close(&ports[i]);
    for (int i = 0; i < MAPPERS; i++)
        defnulk_close(&callers[i]);
    return status == 0 && failures == 0 ? 0 : 1;
}
