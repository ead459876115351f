/* Why a handle isn't opened, in the order in which that is asked, with memory and without: want of memory is told of a
   closed handle alone, and where there is something to give. It prints nothing, unless something is wrong. `tests/c/run`
   builds it. */
#include <stdio.h>
#include <stdlib.h>

#include "calls.h"
#include "memory.h"

enum { USER = 1 };

static struct defnulk_handle first = DEFNULK_CLOSED, second = DEFNULK_CLOSED, port = DEFNULK_CLOSED,
                             other = DEFNULK_CLOSED;

static void expect(const char *what, int64_t found, int64_t wanted) {
    if (found != wanted) {
        fprintf(stderr, "%s: %lld, and %lld was wanted\n", what, (long long)found, (long long)wanted);
        exit(1);
    }
}

/* Opens a server of one device, with so many passes. */
static int32_t open_with(uint16_t passes, struct defnulk_handle *handle) {
    static const uint64_t users[] = { 8 };
    static const uint16_t files[] = { USER };
    static const struct defnulk_device devices[] = { { 0x10, 39, 1 } };
    const struct defnulk_config config = {
        .users = users, .user_count = 1, .files = files, .file_count = 1, .devices = devices, .device_count = 1,
        .pool = 64, .passes = passes, .lanes = 2, .cache = 1
    };
    return defnulk_open(&config, handle);
}

static int32_t share_of(struct defnulk_handle *handle, struct defnulk_handle *to) {
    return defnulk_share(handle, to);
}

static int32_t port_of(struct defnulk_handle *handle, struct defnulk_handle *to) {
    size_t device = 7;
    int32_t status = defnulk_port(handle, to, &device);
    expect("the device's number", (int64_t)device, status == 0 ? 1 : 7);
    return status;
}

/* What is answered for two handles, and answered too where all memory is refused: that, or want of it where it would
   be given. */
static void expect_both(const char *what, int32_t (*give)(struct defnulk_handle *, struct defnulk_handle *),
                        struct defnulk_handle *handle, struct defnulk_handle *to, int32_t wanted) {
    refuse_growths();
    watch_growths(1);
    int32_t without = give(handle, to);
    watch_growths(0);
    give_memory();
    expect(what, without, wanted == 0 ? -ENOMEM : wanted);
    expect(what, give(handle, to), wanted);
}

static int32_t open_other(struct defnulk_handle *handle, struct defnulk_handle *to) {
    (void)handle;
    return open_with(3, to);
}

int main(void) {
    struct defnulk_outcome out;
    expect_both("open", open_other, NULL, &first, 0);
    expect_both("open an open one", open_other, NULL, &first, -EBUSY);
    expect("open an open one, with no pass", open_with(0, &first), -EBUSY);
    expect("open a closed one, with no pass", open_with(0, &second), -EINVAL);
    expect_both("share by a closed one", share_of, &second, &other, -EBADF);
    expect_both("a port by a closed one", port_of, &second, &other, -EBADF);
    expect_both("share", share_of, &first, &second, 0);
    expect_both("share with an open one", share_of, &first, &second, -EBUSY);
    expect_both("share by who has nothing to give", share_of, &second, &other, -ENFILE);
    expect_both("a port by who has nothing to give", port_of, &second, &other, -ENFILE);
    expect_both("a port", port_of, &first, &port, 0);
    expect_both("a port for an open one", port_of, &first, &port, -EBUSY);
    expect_both("share by a port", share_of, &port, &other, -EBADF);
    expect_both("share without a pass", share_of, &first, &other, -ENFILE);
    expect_both("a port without a device", port_of, &first, &other, -ENFILE);
    expect("what was refused has changed nothing", defnulk_free_frames(&first, &out), 0);
    expect("the second's call", defnulk_free_frames(&second, &out), 0);
    expect("close the port", defnulk_close(&port), 0);
    expect("close the second", defnulk_close(&second), 0);
    expect("close the first", defnulk_close(&first), 0);
    expect("the other is closed", defnulk_close(&other), -EBADF);
    return 0;
}
