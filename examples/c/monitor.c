/* A monitor that holds its guest's memory itself: frame n of the server is page n of a mapping of its own, in which the
 * guest and a device model work. The server says where the device's DMA may go. The device model asks it for
 * translations and keeps them, as hardware does; the monitor, told that an UNMAP has to wait, has it give them up.
 *
 * The last line is the journal of what the server was asked, which `iommufd audit` says to be a run.
 */
#include <inttypes.h>
#include <stdio.h>
#include <stdlib.h>
#include <string.h>
#include <sys/mman.h>

#include "defnulk_iommufd.h"

enum { FILE_ONE = 1, USER_ONE = 1, DEVICE_ONE = 1, PAGE = 4096, FRAMES = 8, KEPT = 4 };

/* The guest's pages, and the device's addresses of the first two. At the last one it signals interrupts. */
enum { REQUEST = 0x10000, ANSWER = 0x11000, THIRD = 0x12000, FOURTH = 0x13000 };
enum { REQUEST_IOVA = 0x1000, ANSWER_IOVA = 0x2000, DOORBELL_IOVA = 0x4000 };

/* The kernel's structures (linux/iommufd.h), in our words. */
enum { IOAS_ALLOC = 0x3b81, IOAS_MAP = 0x3b85, IOAS_UNMAP = 0x3b86 };
enum { FIXED_IOVA = 1, WRITEABLE = 2, READABLE = 4 };

struct ioas_alloc {
    uint32_t size, flags, out_ioas_id;
};

struct ioas_map {
    uint32_t size, flags, ioas_id, reserved;
    uint64_t user_va, length, iova;
};

struct ioas_unmap {
    uint32_t size, ioas_id;
    uint64_t iova, length;
};

/* A translation that the device keeps; one without a right is none. */
struct kept {
    uint64_t page;
    struct defnulk_translation to;
};

/* A device model: its port, the memory in which its frames are, and what it keeps, the oldest to be replaced next. */
struct device {
    struct defnulk_handle port;
    uint8_t *memory;
    struct kept kept[KEPT];
    size_t next;
};

struct monitor {
    struct defnulk_handle caller;
    uint8_t *memory;
    struct device device;
    uint32_t space; /* the id of the device's address space */
    uint32_t bound; /* the id of the device's object */
};

/* Says what a call answered, and ends where it isn't what was wanted. */
static void expect(const char *what, int64_t found, int64_t wanted) {
    printf("%s: %" PRId64 "\n", what, found);
    if (found != wanted) {
        fprintf(stderr, "%s: %" PRId64 " was wanted\n", what, wanted);
        exit(1);
    }
}

/* ---- The device model */

/* What the device keeps of a page, if it may do this there. */
static const struct kept *kept_of(const struct device *device, uint64_t page, int write) {
    for (size_t i = 0; i < KEPT; i++) {
        const struct kept *kept = &device->kept[i];
        if (kept->page == page && (write ? kept->to.writeable : kept->to.readable))
            return kept;
    }
    return NULL;
}

/* Asks the server for the translation of an address, and keeps it: until the device is flushed the frame is nobody
 * else's. */
static int32_t translate(struct device *device, uint64_t iova, int write) {
    struct defnulk_translation to;
    int32_t status;
    do
        status = defnulk_port_translate(&device->port, iova, (uint8_t)write, &to);
    while (status == DEFNULK_NOT_NOW);
    if (status == 0)
        device->kept[device->next++ % KEPT] = (struct kept){ iova / PAGE, to };
    return status;
}

/* Finds where in the memory an address of the device is: by what the device keeps, or else by the server. */
static int32_t find(struct device *device, uint64_t iova, int write, uint8_t **at) {
    const struct kept *kept = kept_of(device, iova / PAGE, write);
    if (kept == NULL) {
        int32_t status = translate(device, iova, write);
        if (status != 0)
            return status;
        kept = kept_of(device, iova / PAGE, write);
    }
    *at = device->memory + kept->to.frame * PAGE + iova % PAGE;
    return 0;
}

/* The device reads these bytes, or writes them, in pieces of one page each. The first that is denied ends it. */
static int32_t dma(struct device *device, uint64_t iova, void *bytes, size_t len, int write) {
    uint8_t *ours = bytes, *at;
    while (len > 0) {
        size_t piece = PAGE - iova % PAGE < len ? PAGE - iova % PAGE : len;
        int32_t status = find(device, iova, write, &at);
        if (status != 0)
            return status;
        memcpy(write ? at : ours, write ? ours : at, piece);
        iova += piece;
        ours += piece;
        len -= piece;
    }
    return 0;
}

/* The device forgets what it keeps, and only then is flushed. */
static int32_t flush(struct device *device) {
    struct defnulk_outcome out;
    int32_t status;
    memset(device->kept, 0, sizeof device->kept);
    do
        status = defnulk_port_flush(&device->port, &out);
    while (status == DEFNULK_NOT_NOW);
    return status;
}

/* ---- The monitor */

/* A call of ioctl with a structure, over which the answer is written, as the kernel does. */
static int32_t ioctl_again(struct monitor *monitor, uint32_t number, void *structure, size_t size) {
    uint8_t room[DEFNULK_LEAST_ROOM];
    size_t written;
    int32_t status;
    do
        status = defnulk_ioctl(&monitor->caller, FILE_ONE, number, structure, size, room, sizeof room, &written);
    while (status == DEFNULK_NOT_NOW);
    if (status == 0 && written == size)
        memcpy(structure, room, size);
    return status;
}

static int32_t map(struct monitor *monitor, uint64_t va, uint64_t iova, uint32_t rights) {
    struct ioas_map map = { sizeof map, FIXED_IOVA | rights, monitor->space, 0, va, PAGE, iova };
    return ioctl_again(monitor, IOAS_MAP, &map, sizeof map);
}

static int32_t unmap(struct monitor *monitor, uint64_t iova) {
    struct ioas_unmap unmap = { sizeof unmap, monitor->space, iova, PAGE };
    return ioctl_again(monitor, IOAS_UNMAP, &unmap, sizeof unmap);
}

/* Gives the guest a page, with nothing in it, and answers where it is. */
static uint8_t *give_page(struct monitor *monitor, uint64_t va, uint32_t frame) {
    struct defnulk_outcome out;
    expect("guest's page", defnulk_user_map(&monitor->caller, USER_ONE, va, &out), 0);
    expect("its frame", (int64_t)out.value, frame);
    return memset(monitor->memory + out.value * PAGE, 0, PAGE);
}

static void open_server(struct monitor *monitor) {
    const uint64_t users[] = { 4 };
    const uint16_t files[] = { USER_ONE };
    const struct defnulk_device devices[] = { { .source = 0x0018, .width = 39 } };
    const struct defnulk_reserved reserved[] = { { DOORBELL_IOVA, DOORBELL_IOVA + PAGE - 1, DEVICE_ONE } };
    const struct defnulk_config config = {
        .users = users, .user_count = 1, .files = files, .file_count = 1, .devices = devices, .device_count = 1,
        .pool = FRAMES, .passes = 2, .lanes = 2, .cache = KEPT, .reserved = reserved, .reserved_count = 1
    };
    size_t number = 0;
    expect("open", defnulk_open(&config, &monitor->caller), 0);
    expect("port", defnulk_port(&monitor->caller, &monitor->device.port, &number), 0);
    expect("of device", (int64_t)number, DEVICE_ONE);
}

/* The device may read the request, and write the answer too. */
static void attach_device(struct monitor *monitor) {
    struct ioas_alloc space = { sizeof space, 0, 0 };
    struct defnulk_outcome out;
    expect("address space", ioctl_again(monitor, IOAS_ALLOC, &space, sizeof space), 0);
    monitor->space = space.out_ioas_id;
    expect("map the request", map(monitor, REQUEST, REQUEST_IOVA, READABLE), 0);
    expect("map the answer", map(monitor, ANSWER, ANSWER_IOVA, READABLE | WRITEABLE), 0);
    expect("bind", defnulk_bind(&monitor->caller, FILE_ONE, DEVICE_ONE, &out), 0);
    monitor->bound = (uint32_t)out.value;
    expect("attach", defnulk_port_attach(&monitor->device.port, monitor->space, &out), 0);
    expect("map where it signals", map(monitor, REQUEST, DOORBELL_IOVA, READABLE | WRITEABLE), -EINVAL);
}

/* The guest asks, and the device answers. */
static void serve_request(struct device *device, uint8_t *request, const uint8_t *answer) {
    char read[16];
    memcpy(request, "read block seven", 16);
    memcpy(request + PAGE - 8, "the tail", 8);
    expect("device reads", dma(device, REQUEST_IOVA, read, 16, 0), 0);
    expect("the request", memcmp(read, "read block seven", 16), 0);
    expect("device answers", dma(device, ANSWER_IOVA, "block seven data", 16, 1), 0);
    expect("where the guest finds it", memcmp(answer, "block seven data", 16), 0);
    expect("device reads over the border", dma(device, ANSWER_IOVA - 8, read, 16, 0), 0);
    expect("bytes of both pages", memcmp(read, "the tailblock se", 16), 0);
    expect("device writes to the request", dma(device, REQUEST_IOVA, read, 16, 1), -EFAULT);
    expect("device reads behind both", dma(device, ANSWER_IOVA + PAGE, read, 16, 0), -EFAULT);
}

/* The guest gives the page of the answer up. While the device may still write there, its frame is nobody else's. */
static void take_answer(struct monitor *monitor, const uint8_t *answer) {
    struct device *device = &monitor->device;
    struct defnulk_outcome out;
    expect("unmap has to wait", unmap(monitor, ANSWER_IOVA), -EAGAIN);
    expect("guest gives the page up", defnulk_user_unmap(&monitor->caller, USER_ONE, ANSWER, &out), 0);
    const uint8_t *third = give_page(monitor, THIRD, 5);
    expect("device still writes", dma(device, ANSWER_IOVA, "late", 4, 1), 0);
    expect("to the page given up", memcmp(answer, "late", 4), 0);
    expect("and not to the new one", third[0], 0);
    expect("flush", flush(device), 0);
    expect("device writes no more", dma(device, ANSWER_IOVA, "too late", 8, 1), -EFAULT);
    expect("unmap", unmap(monitor, ANSWER_IOVA), 0);
    const uint8_t *fourth = give_page(monitor, FOURTH, 1);
    expect("where the answer was", fourth == answer && fourth[0] == 0, 1);
}

static void put_hex(const uint8_t *bytes, size_t len) {
    for (size_t i = 0; i < len; i++)
        printf("%02x", bytes[i]);
    printf("\n");
}

int main(void) {
    struct monitor monitor = { .caller = DEFNULK_CLOSED, .device = { .port = DEFNULK_CLOSED } };
    struct defnulk_outcome out;
    uint8_t journal[1024];
    size_t len = 0;
    monitor.memory = mmap(NULL, FRAMES * PAGE, PROT_READ | PROT_WRITE, MAP_PRIVATE | MAP_ANONYMOUS, -1, 0);
    if (monitor.memory == MAP_FAILED)
        return 1;
    monitor.device.memory = monitor.memory;
    open_server(&monitor);
    uint8_t *request = give_page(&monitor, REQUEST, 0), *answer = give_page(&monitor, ANSWER, 1);
    attach_device(&monitor);
    serve_request(&monitor.device, request, answer);
    take_answer(&monitor, answer);
    expect("detach", defnulk_port_detach(&monitor.device.port, &out), 0);
    expect("unbind", defnulk_unbind(&monitor.caller, FILE_ONE, monitor.bound, &out), 0);
    expect("journal", defnulk_journal(&monitor.caller, journal, sizeof journal, &len), 0);
    expect("its bytes", (int64_t)len, 476);
    if (defnulk_close(&monitor.device.port) != 0 || defnulk_close(&monitor.caller) != 0)
        return 2;
    put_hex(journal, len);
    return munmap(monitor.memory, FRAMES * PAGE) != 0;
}
