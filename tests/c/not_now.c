/* Two callers ask a question all the while, each in a thread of its own, of a server with one lane: so each call of a
   port and of a third caller meets a guard at some time, and can't be served. It tells that and no more, and has made
   no record then. At the end the journal stands on standard output, for an audit. `tests/c/run` builds it. */
#include <pthread.h>
#include <sched.h>
#include <stdio.h>
#include <stdlib.h>
#include <string.h>

#include "calls.h"

enum { USER = 1, DEVICE = 1, SPACE_ID = 1, VA = 0x10000, LOOKERS = 2, TRIES = 10000000, UNTOLD = 0x11 };

static struct defnulk_handle caller, port, lookers[LOOKERS];
static int is_done;

static void fail(const char *what, const char *why) {
    fprintf(stderr, "%s: %s\n", what, why);
    exit(1);
}

/* ---- The calls. Where they tell no outcome, they are made so that each that is served makes a record, or none. */

static unsigned char bytes[DEFNULK_LEAST_ROOM];
static size_t written;

static int32_t port_reads(struct defnulk_outcome *out) {
    return defnulk_port_read(&port, PAGE, bytes, 1, out);
}

static int32_t port_writes(struct defnulk_outcome *out) {
    static const unsigned char byte[] = { 0xc8 };
    return defnulk_port_write(&port, PAGE, byte, sizeof byte, out);
}

static int32_t port_translates(struct defnulk_outcome *out) {
    struct defnulk_translation translation = { UNTOLD, UNTOLD, UNTOLD };
    int32_t status = defnulk_port_translate(&port, PAGE, 0, &translation);
    (void)out;
    if (status != 0 && (translation.frame != UNTOLD || translation.readable != UNTOLD))
        fail("port translates", "something is told");
    return status;
}

static int32_t port_flushes(struct defnulk_outcome *out) {
    return defnulk_port_flush(&port, out);
}

static int32_t port_detaches(struct defnulk_outcome *out) {
    return defnulk_port_detach(&port, out);
}

static int32_t port_attaches(struct defnulk_outcome *out) {
    return defnulk_port_attach(&port, SPACE_ID, out);
}

static int32_t user_maps(struct defnulk_outcome *out) {
    return defnulk_user_map(&caller, USER, VA, out);
}

static int32_t user_reads(struct defnulk_outcome *out) {
    return defnulk_user_read(&caller, USER, VA, bytes, 1, out);
}

static int32_t frames_are_counted(struct defnulk_outcome *out) {
    return defnulk_free_frames(&caller, out);
}

static int32_t notices_are_told(struct defnulk_outcome *out) {
    return defnulk_notices(&caller, 1, SPACE_ID, NULL, 0, out);
}

/* Nothing has this id. */
static int32_t object_is_destroyed(struct defnulk_outcome *out) {
    const struct defnulk_ioctl_destroy destroy = { sizeof destroy, 99 };
    int32_t status =
        defnulk_ioctl(&caller, 1, DEFNULK_DESTROY, &destroy, sizeof destroy, bytes, sizeof bytes, &written);
    out->made = status == -ENOENT;
    return status;
}

static int32_t journal_is_asked(struct defnulk_outcome *out) {
    (void)out;
    return defnulk_journal(&caller, bytes, 1, &written);
}

static const struct {
    const char *name;
    int32_t (*call)(struct defnulk_outcome *out);
    int tells; /* whether it tells where its record stands */
} calls[] = {
    { "port reads", port_reads, 1 },
    { "port writes", port_writes, 1 },
    { "port translates", port_translates, 0 },
    { "port flushes", port_flushes, 1 },
    { "port detaches", port_detaches, 1 },
    { "port attaches", port_attaches, 1 },
    { "user maps", user_maps, 1 },
    { "user reads", user_reads, 1 },
    { "frames are counted", frames_are_counted, 1 },
    { "notices are told", notices_are_told, 1 },
    { "object is destroyed", object_is_destroyed, 0 },
    { "journal is asked", journal_is_asked, 0 },
};

enum { CALLS = sizeof calls / sizeof *calls };

/* ---- */

/* What isn't served tells nothing. */
static void test_refused(const char *name, const struct defnulk_outcome *out) {
    if (out->made != 0 || out->at != 0 || out->value != 0 || out->cause != 0 || out->fault != 0 || written != 0)
        fail(name, "something is told");
    for (size_t i = 0; i < sizeof bytes; i++)
        if (bytes[i] != UNTOLD)
            fail(name, "something is written");
}

/* Makes the call until it isn't served, and counts the records of those that are: each stands right behind those that
   there were, so none that isn't served has made one. */
static void meet_guard(size_t number, uint64_t *records) {
    for (int i = 0; i < TRIES; i++) {
        struct defnulk_outcome out = { 0, 0, 0, 0, 0 };
        memset(bytes, UNTOLD, sizeof bytes);
        written = 0;
        if (calls[number].call(&out) == DEFNULK_NOT_NOW) {
            test_refused(calls[number].name, &out);
            return;
        }
        if (out.made && calls[number].tells && out.at != *records)
            fail(calls[number].name, "a record stands elsewhere");
        *records += out.made;
        sched_yield();
    }
    fail(calls[number].name, "it meets no guard");
}

static void *look_on(void *at) {
    struct defnulk_handle *looker = at;
    struct defnulk_outcome out;
    while (!__atomic_load_n(&is_done, __ATOMIC_ACQUIRE)) {
        int32_t status = defnulk_free_frames(looker, &out);
        if (status != 0 && status != DEFNULK_NOT_NOW)
            fail("a question", "another answer");
    }
    return NULL;
}

static void meet_guards(uint64_t *records) {
    pthread_t threads[LOOKERS];
    for (size_t i = 0; i < LOOKERS; i++)
        if (pthread_create(&threads[i], NULL, look_on, &lookers[i]) != 0)
            fail("a thread", "it isn't started");
    for (size_t i = 0; i < CALLS; i++)
        meet_guard(i, records);
    __atomic_store_n(&is_done, 1, __ATOMIC_RELEASE);
    for (size_t i = 0; i < LOOKERS; i++)
        pthread_join(threads[i], NULL);
}

/* A server with one lane, whose device is attached where the user's page is mapped; and how many records there are. */
static uint64_t open_all(void) {
    static const uint64_t users[] = { 4 };
    static const uint16_t files[] = { USER };
    static const struct defnulk_device devices[] = { { 0x10, 39, 0 } };
    const struct defnulk_config config = {
        .users = users, .user_count = 1, .files = files, .file_count = 1, .devices = devices, .device_count = 1,
        .pool = 8, .passes = 2 + LOOKERS, .lanes = 1, .cache = 1
    };
    struct defnulk_outcome out;
    size_t device;
    if (defnulk_open(&config, &caller) != 0 || defnulk_port(&caller, &port, &device) != 0)
        fail("the server", "it isn't opened");
    for (size_t i = 0; i < LOOKERS; i++)
        if (defnulk_share(&caller, &lookers[i]) != 0)
            fail("the server", "it isn't shared");
    if (defnulk_user_map(&caller, USER, VA, &out) != 0 || make_space(&caller) != 0 || map_page(&caller, VA, PAGE) != 0
        || defnulk_bind(&caller, 1, DEVICE, &out) != 0 || defnulk_port_attach(&port, SPACE_ID, &out) != 0)
        fail("the server", "its device isn't attached");
    return out.at + 1;
}

static void close_all(void) {
    for (size_t i = 0; i < LOOKERS; i++)
        defnulk_close(&lookers[i]);
    defnulk_close(&port);
    defnulk_close(&caller);
}

int main(void) {
    struct defnulk_outcome out;
    uint64_t records = open_all();
    meet_guards(&records);
    if (defnulk_port_flush(&port, &out) != 0 || out.at != records)
        fail("the last record", "it stands elsewhere");
    int32_t status = put_journal(&caller);
    close_all();
    return status == 0 ? 0 : 1;
}
