/* Closing a handle makes no record, whoever's it is: another's journal stays the same, byte for byte, and its calls go
   on. It writes the last caller's journal, as a line `journal <hex>`. `tests/c/run` builds it. */
#include <stdio.h>
#include <stdlib.h>
#include <string.h>

#include "calls.h"

enum { USER = 1, DEVICE = 1, SPACE_ID = 1, VA = 0x10000 };

/* Who has opened the server, another caller, and the port of its device. */
static struct defnulk_handle first = DEFNULK_CLOSED, last = DEFNULK_CLOSED, port = DEFNULK_CLOSED;

static void expect(const char *what, int64_t found, int64_t wanted) {
    if (found != wanted) {
        fprintf(stderr, "%s: %lld, and %lld was wanted\n", what, (long long)found, (long long)wanted);
        exit(1);
    }
}

static void open_all(void) {
    static const uint64_t users[] = { 8 };
    static const uint16_t files[] = { USER };
    static const struct defnulk_device devices[] = { { 0x10, 39, 0 } };
    const struct defnulk_config config = {
        .users = users, .user_count = 1, .files = files, .file_count = 1, .devices = devices, .device_count = 1,
        .pool = 16, .passes = 3, .lanes = 2, .cache = 1
    };
    size_t device;
    expect("open", defnulk_open(&config, &first), 0);
    expect("share", defnulk_share(&first, &last), 0);
    expect("port", defnulk_port(&first, &port, &device), 0);
}

/* The device is attached to an address space with the user's page, which it writes: each handle has made records. */
static void make_records(void) {
    static const unsigned char byte[] = { 0xb7 };
    struct defnulk_outcome out;
    expect("user's page", defnulk_user_map(&first, USER, VA, &out), 0);
    expect("address space", make_space(&first), 0);
    expect("map", map_page(&last, VA, PAGE), 0);
    expect("bind", defnulk_bind(&last, 1, DEVICE, &out), 0);
    expect("attach", defnulk_port_attach(&port, SPACE_ID, &out), 0);
    expect("write", defnulk_port_write(&port, PAGE, byte, sizeof byte, &out), 0);
}

static unsigned char *journal_of(struct defnulk_handle *caller, size_t *len) {
    size_t written = 0;
    expect("the journal's length", defnulk_journal(caller, NULL, 0, len), 0);
    unsigned char *bytes = malloc(*len);
    expect("memory", bytes != NULL, 1);
    expect("journal", defnulk_journal(caller, bytes, *len, &written), 0);
    expect("bytes", (int64_t)written, (int64_t)*len);
    return bytes;
}

/* Closes a handle, and finds the last caller's journal as it was. */
static void close_unrecorded(const char *what, struct defnulk_handle *handle) {
    size_t before, after;
    unsigned char *old = journal_of(&last, &before);
    expect(what, defnulk_close(handle), 0);
    unsigned char *new = journal_of(&last, &after);
    expect("a journal of other bytes", before != after || memcmp(old, new, before) != 0, 0);
    expect("once more", defnulk_close(handle), -EBADF);
    free(old);
    free(new);
}

int main(void) {
    struct defnulk_outcome out;
    open_all();
    make_records();
    close_unrecorded("close the port", &port);
    close_unrecorded("close the first", &first);
    expect("a call of the last", defnulk_user_map(&last, USER, VA + PAGE, &out), 0);
    int ended = put_journal(&last);
    expect("close the last", defnulk_close(&last), 0);
    return ended != 0;
}
