/* A small monitor: a user's page is mapped for a device, the device reads and writes it, and the page is unmapped,
 * which waits until the device has forgotten it. Then each handle that isn't the right one is refused.
 */
#include <inttypes.h>
#include <stdio.h>
#include <stdlib.h>
#include <string.h>

#include "defnulk_iommufd.h"

enum { FILE_ONE = 1, USER_ONE = 1, DEVICE_ONE = 1, PAGE = 4096 };

/* The kernel's structures (linux/iommufd.h), in our words. */
enum { IOAS_ALLOC = 0x3b81, IOAS_MAP = 0x3b85, IOAS_UNMAP = 0x3b86 };
enum { FIXED_IOVA = 1, WRITEABLE = 2, READABLE = 4 };

struct ioas_alloc {
    uint32_t size, flags, out_ioas_id;
};

struct ioas_map {
    uint32_t size, flags, ioas_id, reserved;
    uint64_t user_va, length, iova;
};

struct ioas_unmap {
    uint32_t size, ioas_id;
    uint64_t iova, length;
};

/* Says what a call answered, and ends where it isn't what was wanted. */
static void expect(const char *what, int64_t found, int64_t wanted) {
    printf("%s: %" PRId64 "\n", what, found);
    if (found != wanted) {
        fprintf(stderr, "%s: %" PRId64 " was wanted\n", what, wanted);
        exit(1);
    }
}

/* A call of ioctl with a structure, over which the answer is written, as the kernel does. It is made again until it is
 * served. */
static int32_t ioctl_again(struct defnulk_handle *caller, uint32_t number, void *structure, size_t size) {
    uint8_t room[DEFNULK_LEAST_ROOM];
    size_t written;
    int32_t status;
    do
        status = defnulk_ioctl(caller, FILE_ONE, number, structure, size, room, sizeof room, &written);
    while (status == DEFNULK_NOT_NOW);
    if (status == 0 && written == size)
        memcpy(structure, room, size);
    return status;
}

/* Maps a page of the user for devices, and gives the address space's id. */
static uint32_t map_page(struct defnulk_handle *caller, uint64_t va, uint64_t iova) {
    struct defnulk_outcome out;
    struct ioas_alloc space = { sizeof space, 0, 0 };
    expect("user's page", defnulk_user_map(caller, USER_ONE, va, &out), 0);
    expect("its frame", (int64_t)out.value, 0);
    expect("address space", ioctl_again(caller, IOAS_ALLOC, &space, sizeof space), 0);
    expect("its id", space.out_ioas_id, 1);
    struct ioas_map map = { sizeof map, FIXED_IOVA | WRITEABLE | READABLE, space.out_ioas_id, 0, va, PAGE, iova };
    expect("map", ioctl_again(caller, IOAS_MAP, &map, sizeof map), 0);
    expect("held", defnulk_held(caller, USER_ONE, &out), 0);
    expect("user's pinned pages", (int64_t)out.value, 0);
    return space.out_ioas_id;
}

/* The device writes across two pieces, and the user reads what it wrote. */
static void access_page(struct defnulk_handle *caller, struct defnulk_handle *port, uint64_t va, uint64_t iova) {
    struct defnulk_outcome out;
    uint8_t sent[100], seen[64], read[8] = { 0 };
    for (size_t i = 0; i < sizeof sent; i++)
        sent[i] = (uint8_t)(i + 1);
    expect("device writes", defnulk_port_write(port, iova, sent, sizeof sent, &out), 0);
    expect("bytes", (int64_t)out.value, 100);
    expect("its last record", (int64_t)out.at, 6);
    expect("user reads", defnulk_user_read(caller, USER_ONE, va + 40, seen, sizeof seen, &out), 0);
    expect("the same bytes", memcmp(seen, sent + 40, 60) == 0 && seen[60] == 0, 1);
    expect("device reads past the page", defnulk_port_read(port, iova + PAGE - 4, read, sizeof read, &out), -EFAULT);
    expect("bytes before", (int64_t)out.value, 4);
    expect("reason: no page for reads", out.fault, 6);
}

/* An UNMAP waits for the device, which goes on with the page that it keeps, until it is flushed. */
static void unmap_page(struct defnulk_handle *caller, struct defnulk_handle *port, uint32_t space, uint64_t iova) {
    struct defnulk_outcome out;
    uint8_t read[2] = { 0 };
    struct ioas_unmap unmap = { sizeof unmap, space, iova, PAGE };
    expect("unmap has to wait", ioctl_again(caller, IOAS_UNMAP, &unmap, sizeof unmap), -EAGAIN);
    expect("device reads on", defnulk_port_read(port, iova, read, sizeof read, &out), 0);
    expect("what it wrote", read[0] == 1 && read[1] == 2, 1);
    expect("flush", defnulk_port_flush(port, &out), 0);
    expect("device reads", defnulk_port_read(port, iova, read, sizeof read, &out), -EFAULT);
    expect("reason: no page for reads", out.fault, 6);
    expect("unmap", ioctl_again(caller, IOAS_UNMAP, &unmap, sizeof unmap), 0);
    expect("bytes", (int64_t)unmap.length, PAGE);
    expect("unmap again", ioctl_again(caller, IOAS_UNMAP, &unmap, sizeof unmap), -ENOENT);
}

/* A handle that is closed, of the other kind, or null is refused. */
static void refuse(struct defnulk_handle *caller, struct defnulk_handle *port) {
    struct defnulk_handle closed = DEFNULK_CLOSED, other = DEFNULK_CLOSED;
    struct defnulk_translation to = { 66, 0, 0 };
    struct defnulk_outcome out;
    size_t device = 77, len = 88;
    expect("a closed handle", defnulk_bind(&closed, FILE_ONE, DEVICE_ONE, &out), -EBADF);
    expect("a port's handle", defnulk_bind(port, FILE_ONE, DEVICE_ONE, &out), -EBADF);
    expect("a caller's handle", defnulk_port_flush(caller, &out), -EBADF);
    expect("a caller's handle translates", defnulk_port_translate(caller, 0, 0, &to), -EBADF);
    expect("the frame as it was", to.frame, 66);
    expect("a port's journal", defnulk_journal(port, NULL, 0, &len), -EBADF);
    expect("no length", (int64_t)len, 0);
    expect("notices of no access object", defnulk_notices(caller, FILE_ONE, 9, NULL, 0, &out), -ENOENT);
    expect("cause: no such id", out.cause, 11);
    expect("no handle", defnulk_port_flush(NULL, &out), -EFAULT);
    expect("no place for the outcome", defnulk_port_flush(port, NULL), -EFAULT);
    expect("no place for the journal", defnulk_journal(caller, NULL, 1, &len), -EFAULT);
    expect("its length in its place", defnulk_journal(caller, &len, sizeof len, &len), -EINVAL);
    expect("no place for a notice", defnulk_notices(caller, FILE_ONE, 9, NULL, 1, &out), -EFAULT);
    expect("one handle twice", defnulk_share(caller, caller), -EINVAL);
    expect("no other port", defnulk_port(caller, &other, &device), -ENFILE);
    expect("the number as it was", (int64_t)device, 77);
    expect("another caller", defnulk_share(caller, &other), 0);
    expect("frames", defnulk_free_frames(&other, &out), 0);
    expect("that are free", (int64_t)out.value, 7);
    expect("no third caller", defnulk_share(caller, &closed), -ENFILE);
    expect("close", defnulk_close(&other), 0);
    expect("close again", defnulk_close(&other), -EBADF);
}

int main(void) {
    const uint64_t va = 0x10000, iova = 0x1000;
    const uint64_t users[] = { 4 };
    const uint16_t files[] = { USER_ONE };
    const struct defnulk_device devices[] = { { 0x0018, 39, 0 } };
    const struct defnulk_config config = {
        .users = users, .user_count = 1, .files = files, .file_count = 1, .devices = devices, .device_count = 1,
        .pool = 8, .passes = 3, .lanes = 2, .cache = 16
    };
    struct defnulk_handle caller = DEFNULK_CLOSED, port = DEFNULK_CLOSED;
    struct defnulk_outcome out;
    size_t device = 0;

    expect("open", defnulk_open(&config, &caller), 0);
    expect("open an open handle", defnulk_open(&config, &caller), -EBUSY);
    expect("port", defnulk_port(&caller, &port, &device), 0);
    expect("of device", (int64_t)device, DEVICE_ONE);
    uint32_t space = map_page(&caller, va, iova);
    expect("bind", defnulk_bind(&caller, FILE_ONE, DEVICE_ONE, &out), 0);
    uint32_t bound = (uint32_t)out.value;
    expect("attach", defnulk_port_attach(&port, space, &out), 0);
    expect("held", defnulk_held(&caller, USER_ONE, &out), 0);
    expect("user's pinned pages", (int64_t)out.value, 1);
    access_page(&caller, &port, va, iova);
    unmap_page(&caller, &port, space, iova);
    expect("detach", defnulk_port_detach(&port, &out), 0);
    expect("unbind", defnulk_unbind(&caller, FILE_ONE, bound, &out), 0);
    refuse(&caller, &port);
    expect("close the port", defnulk_close(&port), 0);
    expect("close the server", defnulk_close(&caller), 0);
    return 0;
}
