/* The proved iommufd server as a C library (C99).
 *
 * A server has a pool of frames (pages of 4096 bytes, counted from 0), users whose memory is mapped (from 1), open
 * iommufd files, each of a user (from 1), and devices behind an IOMMU (from 1). Those who call it do so by handles:
 * a caller's, or the port of a device. A handle has a share of the server and a pass. All calls of all handles make
 * one history of records: a call that changes something makes one, or none, and a port's write one for each piece.
 *
 * RESULTS. Each call answers an int32_t: 0, or the negative number of an errno (-EINVAL), or DEFNULK_NOT_NOW: it can't
 * be served now, as where another call is on the way; it made no record, and has to be made again (of a port's read or
 * write the rest). No call waits. A port's flush, attach or detach empties the port's cache first, however it ends.
 * What else a call tells stands in a struct defnulk_outcome. Where outcome.cause and outcome.fault are 0, these
 * errnos are the library's own, and the call made no record:
 *
 *   -EBADF    the handle is closed, or of the other kind (a port's where a caller's is asked for, or a caller's)
 *   -ENOMEM   there was no memory
 *   -EFAULT   a pointer is null
 *   -EINVAL   an array is too long, or arrays, handles or places for results overlap; or what a call says of it
 *   -EBUSY, -ENFILE   as the calls say that open handles
 *
 * A port's read or write is served in pieces, and the outcome's value says how many bytes have passed before any of
 * these: with DEFNULK_NOT_NOW it has to be made again for the rest alone.
 *
 * Every other errno is the server's: a refusal, with the number of its cause in outcome.cause (enum defnulk_cause),
 * which changed nothing, and is a record but for a question; or a denied access, -EFAULT with the reason in
 * outcome.fault. A few calls have no outcome, and say themselves what an errno means; that of defnulk_ioctl is what the
 * kernel's call answers. -EDEADLK is the errno that Linux calls EDEADLOCK, too.
 *
 * DEFNULK_NOT_NOW comes where another thread is in a call of the same server, or was just now.
 *
 * HANDLES. A handle begins as DEFNULK_CLOSED, and is from then on only what these calls made of it: its bytes are not
 * compared or written by anybody else, and no copy of them is used. (It may be moved: its bytes are copied to the new
 * place, and the old one is set to DEFNULK_CLOSED at once.)
 * It is in one call at a time. Another thread may use it once that is ordered by a lock, or by a thread's start or
 * join. Different handles, of one server too, may be used by different threads at the same time.
 *
 * WHAT IS TESTED, AND WHAT CAN'T BE. The calls below test that no pointer is null, that no array is longer than
 * PTRDIFF_MAX bytes, that arrays, handles and places for results don't overlap, and that a handle is open and of the
 * right kind. Nothing can tell a pointer to too little memory, a copied handle, one with other bytes in it, or two
 * calls at once by one handle. The functions defnulk_raw_.. test whether a handle is open and of the right kind, and
 * none of the rest; they are called through those below alone, or from a language whose own rules say the same of its
 * references (examples/rust).
 *
 * Not from a signal handler, nor in a forked child. Memory is taken by malloc, realloc and free, which have to align
 * to 16 bytes.
 */
#ifndef DEFNULK_IOMMUFD_H
#define DEFNULK_IOMMUFD_H

#include <errno.h>
#include <stddef.h>
#include <stdint.h>

#ifdef __cplusplus
extern "C" {
#endif

/* The call can't be served now: make it again, a port's read or write for the rest. No errno has this number. */
#define DEFNULK_NOT_NOW (-4096)

/* The least room for what an ioctl writes back, in bytes. */
#define DEFNULK_LEAST_ROOM 64

/* A handle: a caller's or a port's, or closed. */
struct defnulk_handle {
    void *at;
};

#define DEFNULK_CLOSED { 0 }

/* Why the server refuses a call: the number in outcome.cause, with the errno that stands beside it. */
enum defnulk_cause {
    DEFNULK_CAUSE_NUMBER = 1, /* ENOTTY: the command's number isn't served */
    DEFNULK_CAUSE_SHORT = 2, /* EINVAL: the structure, or the bytes given, are too short */
    DEFNULK_CAUSE_TAIL = 3, /* E2BIG: the size is above 4096, or a byte past the known structure isn't zero */
    DEFNULK_CAUSE_UNSUPPORTED = 4, /* EOPNOTSUPP: an unknown flag bit, or a reserved field that isn't 0 */
    DEFNULK_CAUSE_ARRAY = 5, /* EINVAL: the wrong number of bytes after the structure */
    DEFNULK_CAUSE_FRAMES = 6, /* ENOMEM: the pool has fewer free frames than the step needs */
    DEFNULK_CAUSE_ACCOUNT = 7, /* ENOMEM: the user's limit of pinned pages would be passed */
    DEFNULK_CAUSE_ABSENT = 8, /* EFAULT: a page isn't in the user's memory */
    DEFNULK_CAUSE_OVERLAP = 9, /* EEXIST: the span meets an area, or the user page is mapped already */
    DEFNULK_CAUSE_SPAN = 10, /* ENOENT: no area, a gap, a cut area, or no exact match */
    /* ENOENT: a closed or unknown file, an unknown user or device, a device that isn't bound, an id that isn't this
       file's or is of another kind */
    DEFNULK_CAUSE_ID = 11,
    DEFNULK_CAUSE_IN_USE = 12, /* EBUSY: others still use the object */
    DEFNULK_CAUSE_BOUND = 13, /* EBUSY: already bound or attached; a DESTROY of a device object */
    DEFNULK_CAUSE_WIDTH = 14, /* EINVAL: the device and the hardware page table have different widths */
    DEFNULK_CAUSE_NARROW = 15, /* EADDRINUSE: an area or an allowed range would lie outside the usable ranges */
    DEFNULK_CAUSE_RIGHTS = 16, /* EPERM: a right that the area, the memory object or the pin doesn't have */
    DEFNULK_CAUSE_LEAVING = 17, /* EINVAL: a pin in a leaving area */
    DEFNULK_CAUSE_NOT_HELD = 18, /* EINVAL: no such held pin */
    DEFNULK_CAUSE_SUM = 19, /* EOVERFLOW: start plus length is above 2^64 */
    /* EINVAL: a length of 0; a length or an address that isn't a multiple of 4096; a user page at or above 2^48 */
    DEFNULK_CAUSE_ALIGN = 20,
    DEFNULK_CAUSE_NO_RIGHT = 21, /* EINVAL: neither READABLE nor WRITEABLE */
    DEFNULK_CAUSE_RESERVED = 22, /* EINVAL: a fixed span outside the usable ranges */
    DEFNULK_CAUSE_FULL = 23, /* ENOSPC: no room for a chosen address, or a limit reached */
    DEFNULK_CAUSE_LIST = 24, /* EINVAL: allowed ranges that overlap, or don't begin below their last address */
    DEFNULK_CAUSE_PLACES = 25, /* EMSGSIZE: fewer places than ranges */
    DEFNULK_CAUSE_CROSS = 26, /* EINVAL: an access of 0 or more than 64 bytes, or across a page */
    DEFNULK_CAUSE_INTERRUPT_RANGE = 27, /* EINVAL: an access of an x86 device to its interrupt range */
    DEFNULK_CAUSE_UNATTACHED = 28, /* ENOENT: the device or access isn't attached */
    DEFNULK_CAUSE_PENDING = 29, /* EBUSY: the first hardware page table while an area is leaving */
    /* EINVAL: a hardware page table whose written pages aren't tracked, or more than 256 pages at once */
    DEFNULK_CAUSE_TRACKING = 30,
};

/* The numbers of ioctl. The first eight are those of linux/iommufd.h, the last two are Defnulk's own. */
enum defnulk_ioctl_number {
    DEFNULK_DESTROY = 0x3b80,
    DEFNULK_IOAS_ALLOC = 0x3b81,
    DEFNULK_IOAS_ALLOW_IOVAS = 0x3b82,
    DEFNULK_IOAS_COPY = 0x3b83,
    DEFNULK_IOAS_IOVA_RANGES = 0x3b84,
    DEFNULK_IOAS_MAP = 0x3b85,
    DEFNULK_IOAS_UNMAP = 0x3b86,
    DEFNULK_HWPT_ALLOC = 0x3b89,
    DEFNULK_DIRTY_ENABLE = 0x3bf0,
    DEFNULK_DIRTY_REPORT = 0x3bf1
};

/* The flags of IOAS_MAP and IOAS_COPY. */
enum defnulk_map_flag { DEFNULK_FIXED_IOVA = 1, DEFNULK_WRITEABLE = 2, DEFNULK_READABLE = 4 };

/* Their structures, laid out as in linux/iommufd.h, for where that isn't there. `size` is the structure's own; reserved
   fields are 0, and so are pointers, which are ignored: arrays stand behind the structure. docs/SCRIPT.md says what
   each does. */
struct defnulk_ioctl_destroy { uint32_t size, id; };
struct defnulk_ioas_alloc { uint32_t size, flags, out_ioas_id; };
struct defnulk_iova_range { uint64_t start, last; };
struct defnulk_ioas_allow_iovas { uint32_t size, ioas_id, num_iovas, reserved; uint64_t allowed_iovas; };
struct defnulk_ioas_iova_ranges {
    uint32_t size, ioas_id, num_iovas, reserved;
    uint64_t allowed_iovas, out_iova_alignment;
};
struct defnulk_ioas_map { uint32_t size, flags, ioas_id, reserved; uint64_t user_va, length, iova; };
struct defnulk_ioas_copy { uint32_t size, flags, dst_ioas_id, src_ioas_id; uint64_t length, dst_iova, src_iova; };
struct defnulk_ioas_unmap { uint32_t size, ioas_id; uint64_t iova, length; };
struct defnulk_hwpt_alloc { uint32_t size, flags, dev_id, pt_id, out_hwpt_id, reserved; };
struct defnulk_dirty_enable { uint32_t size, hwpt_id, flags, reserved; };
struct defnulk_dirty_report { uint32_t size, hwpt_id, flags, reserved; uint64_t iova, length; };

/* What a call tells beside its result. Each call that takes one writes it, all zeros where there is nothing to tell; it
   stays as it was where it is null itself, an array is longer than PTRDIFF_MAX bytes, or something overlaps. */
struct defnulk_outcome {
    uint64_t at;    /* the place of the last record that it made, counted from 0, where made is 1 */
    uint64_t value; /* the number that it answers, as each call says; or 0 */
    uint32_t made;  /* 1 where it made a record, or 0 */
    uint16_t cause; /* the number of the cause by which it was refused, or 0 */
    uint16_t fault; /* the number of the reason (2, 4, 5, 6) by which the IOMMU denied an access, or 0 */
};

/* A device. */
struct defnulk_device {
    uint16_t source; /* the id by which the IOMMU knows it: bus, device, function */
    uint8_t width;   /* how many bits its addresses have: 39, 48 or 57 */
    uint8_t x86;     /* not 0 where it has the interrupt range of x86, 0xfee00000 to 0xfeefffff */
};

/* Addresses that a device keeps for itself, as those by which it signals interrupts: while it is attached, nothing can
   be mapped there. They are whole pages: `first` is a multiple of 4096, and `last`, the last of them, one below one. */
struct defnulk_reserved {
    uint64_t first;
    uint64_t last;
    uint16_t device; /* the device's number, from 1 on */
};

/* What a server is opened with. The arrays are read, and not kept. An initialiser that doesn't name the last two fields
   means that no device reserves a span. */
struct defnulk_config {
    const uint64_t *users; /* how many pinned pages each user may have, from user 1 on */
    size_t user_count;     /* 1 to 255 */
    const uint16_t *files; /* the user of each file, from file 1 on */
    size_t file_count;     /* 1 to 1024 */
    const struct defnulk_device *devices; /* from device 1 on; may be null where there is none */
    size_t device_count;   /* 0 to 256 */
    uint32_t pool;         /* the frames of the pool: 1 to 4096 */
    uint16_t passes;       /* one for each caller's and each port's handle that is ever opened: 1 to 1024 */
    uint16_t lanes;        /* 1 to 64: as many callers may ask at once; a call that changes something takes all */
    uint16_t cache;        /* how many pages a port keeps translations of: 1 to 4096 */
    const struct defnulk_reserved *reserved; /* of all devices, in any order; may be null where there is none */
    size_t reserved_count; /* at most 16 for each device */
};

/* The first and the last address of an area. */
struct defnulk_span {
    uint64_t first;
    uint64_t last;
};

/* Where a device has a page, and what it may do there. */
struct defnulk_translation {
    uint32_t frame;    /* the number of the page's frame in the pool */
    uint8_t readable;  /* 1 where the device may read the page, or 0 */
    uint8_t writeable; /* 1 where it may write the page, or 0 */
};

/* The exports themselves. A slice is a pointer, which isn't null even for length 0, and then a length. */
int32_t defnulk_raw_open(uint32_t pool, const uint64_t *users, size_t user_count, const uint16_t *files,
                         size_t file_count, const struct defnulk_device *devices, size_t device_count,
                         const struct defnulk_reserved *reserved, size_t reserved_count, uint16_t passes,
                         uint16_t lanes, uint16_t cache, struct defnulk_handle *handle);
int32_t defnulk_raw_share(struct defnulk_handle *handle, struct defnulk_handle *other);
int32_t defnulk_raw_port(struct defnulk_handle *handle, struct defnulk_handle *other, size_t *device);
int32_t defnulk_raw_close(struct defnulk_handle *handle);
int32_t defnulk_raw_ioctl(struct defnulk_handle *handle, uint16_t file, uint32_t number, const uint8_t *bytes,
                          size_t len, uint8_t *room, size_t room_len, size_t *written);
int32_t defnulk_raw_user_map(struct defnulk_handle *handle, uint16_t user, uint64_t va, struct defnulk_outcome *out);
int32_t defnulk_raw_user_unmap(struct defnulk_handle *handle, uint16_t user, uint64_t va, struct defnulk_outcome *out);
int32_t defnulk_raw_user_write(struct defnulk_handle *handle, uint16_t user, uint64_t va, const uint8_t *bytes,
                               size_t len, struct defnulk_outcome *out);
int32_t defnulk_raw_user_read(struct defnulk_handle *handle, uint16_t user, uint64_t va, uint8_t *buffer, size_t len,
                              struct defnulk_outcome *out);
int32_t defnulk_raw_bind(struct defnulk_handle *handle, uint16_t file, uint16_t device, struct defnulk_outcome *out);
int32_t defnulk_raw_unbind(struct defnulk_handle *handle, uint16_t file, uint32_t id, struct defnulk_outcome *out);
int32_t defnulk_raw_close_file(struct defnulk_handle *handle, uint16_t file, struct defnulk_outcome *out);
int32_t defnulk_raw_access_create(struct defnulk_handle *handle, uint16_t file, struct defnulk_outcome *out);
int32_t defnulk_raw_access_attach(struct defnulk_handle *handle, uint16_t file, uint32_t access, uint32_t ioas,
                                  struct defnulk_outcome *out);
int32_t defnulk_raw_access_detach(struct defnulk_handle *handle, uint16_t file, uint32_t access,
                                  struct defnulk_outcome *out);
int32_t defnulk_raw_access_pin(struct defnulk_handle *handle, uint16_t file, uint32_t access, uint64_t iova,
                               uint64_t length, uint8_t write, struct defnulk_outcome *out);
int32_t defnulk_raw_access_unpin(struct defnulk_handle *handle, uint16_t file, uint32_t access, uint64_t iova,
                                 uint64_t length, uint8_t write, struct defnulk_outcome *out);
int32_t defnulk_raw_access_write(struct defnulk_handle *handle, uint16_t file, uint32_t access, uint64_t iova,
                                 const uint8_t *bytes, size_t len, struct defnulk_outcome *out);
int32_t defnulk_raw_access_read(struct defnulk_handle *handle, uint16_t file, uint32_t access, uint64_t iova,
                                uint8_t *buffer, size_t len, struct defnulk_outcome *out);
int32_t defnulk_raw_notices(struct defnulk_handle *handle, uint16_t file, uint32_t access, struct defnulk_span *spans,
                            size_t count, struct defnulk_outcome *out);
int32_t defnulk_raw_held(struct defnulk_handle *handle, uint16_t user, struct defnulk_outcome *out);
int32_t defnulk_raw_free_frames(struct defnulk_handle *handle, struct defnulk_outcome *out);
int32_t defnulk_raw_journal(struct defnulk_handle *handle, uint8_t *room, size_t room_len, size_t *written);
int32_t defnulk_raw_port_read(struct defnulk_handle *handle, uint64_t iova, uint8_t *buffer, size_t len,
                              struct defnulk_outcome *out);
int32_t defnulk_raw_port_write(struct defnulk_handle *handle, uint64_t iova, const uint8_t *bytes, size_t len,
                               struct defnulk_outcome *out);
int32_t defnulk_raw_port_translate(struct defnulk_handle *handle, uint64_t iova, uint8_t write,
                                   struct defnulk_translation *translation);
int32_t defnulk_raw_port_flush(struct defnulk_handle *handle, struct defnulk_outcome *out);
int32_t defnulk_raw_port_attach(struct defnulk_handle *handle, uint32_t pt_id, struct defnulk_outcome *out);
int32_t defnulk_raw_port_detach(struct defnulk_handle *handle, struct defnulk_outcome *out);

/* ---- What the calls below are made of */

/* Stands for an array of no bytes, whose pointer is null. */
static const uint8_t defnulk_no_bytes[1] = { 0 };

/* Whether an array has so many items of a size: it isn't null, or has none, and isn't too long. */
static inline int defnulk_is_array(const void *at, size_t count, size_t size) {
    return count <= (size_t)PTRDIFF_MAX / size && (at != NULL || count == 0);
}

/* How many bytes so many items of a size are; or SIZE_MAX, which no array has. */
static inline size_t defnulk_size(size_t count, size_t size) {
    return count <= (size_t)PTRDIFF_MAX / size ? count * size : SIZE_MAX;
}

/* Whether two spans of bytes have none in common. */
static inline int defnulk_apart(const void *a, size_t a_len, const void *b, size_t b_len) {
    uintptr_t x = (uintptr_t)a, y = (uintptr_t)b;
    return a_len == 0 || b_len == 0 || (x < y ? y - x >= a_len : x - y >= b_len);
}

/* Whether a handle and a place for a result are there, and apart. */
static inline int defnulk_has_room(const struct defnulk_handle *handle, const void *out, size_t out_len) {
    return handle != NULL && out != NULL && defnulk_apart(handle, sizeof *handle, out, out_len);
}

static inline const uint8_t *defnulk_bytes(const void *at) {
    return at != NULL ? (const uint8_t *)at : defnulk_no_bytes;
}

/* Tests a handle, an array of bytes and a place for the outcome: 0, -EFAULT for a null, -EINVAL for what is too long or
   overlaps, and then the outcome stays as it was; else it is all zeros. */
static inline int32_t defnulk_test(const struct defnulk_handle *handle, const void *array, size_t len,
                                   struct defnulk_outcome *out) {
    static const struct defnulk_outcome nothing = { 0, 0, 0, 0, 0 };
    if (out == NULL)
        return -EFAULT;
    if (!defnulk_is_array(array, len, 1) && array != NULL)
        return -EINVAL;
    if (!defnulk_apart(out, sizeof *out, array, len) || !defnulk_apart(out, sizeof *out, handle, sizeof *handle)
        || !defnulk_apart(handle, sizeof *handle, array, len))
        return -EINVAL;
    *out = nothing;
    return handle == NULL || (array == NULL && len > 0) ? -EFAULT : 0;
}

/* ---- Opening and closing */

/* Opens a server for a handle that is closed. The handle is then its first caller's: it has one of the server's
   passes, all others to give, and the right to each device's port. -EBUSY: the handle is open, which is asked before
   all else that a server is asked for. -EINVAL: a number is outside its limits, a file is of no user, a width is none
   that there is, or a reserved span is of no device or not whole pages. -ENOMEM: nothing of that is so, and there is no
   memory. With each the handle stays as it was. */
static inline int32_t defnulk_open(const struct defnulk_config *config, struct defnulk_handle *handle) {
    static const struct defnulk_device none = { 0, 39, 0 };
    static const struct defnulk_reserved no_span = { 0, 4095, 1 };
    if (config == NULL || handle == NULL || config->users == NULL || config->files == NULL
        || (config->devices == NULL && config->device_count > 0)
        || (config->reserved == NULL && config->reserved_count > 0))
        return -EFAULT;
    if (!defnulk_is_array(config->users, config->user_count, sizeof *config->users)
        || !defnulk_is_array(config->files, config->file_count, sizeof *config->files)
        || !defnulk_is_array(config->devices, config->device_count, sizeof *config->devices)
        || !defnulk_is_array(config->reserved, config->reserved_count, sizeof *config->reserved)
        || !defnulk_apart(handle, sizeof *handle, config->users, config->user_count * sizeof *config->users)
        || !defnulk_apart(handle, sizeof *handle, config->files, config->file_count * sizeof *config->files)
        || !defnulk_apart(handle, sizeof *handle, config->devices, config->device_count * sizeof *config->devices)
        || !defnulk_apart(handle, sizeof *handle, config->reserved, config->reserved_count * sizeof *config->reserved))
        return -EINVAL;
    return defnulk_raw_open(config->pool, config->users, config->user_count, config->files, config->file_count,
                            config->devices != NULL ? config->devices : &none, config->device_count,
                            config->reserved != NULL ? config->reserved : &no_span, config->reserved_count,
                            config->passes, config->lanes, config->cache, handle);
}

/* Opens another handle, which is closed, for another caller of the same server, by a pass that this caller has to
   give: that is the one by whose handle the server was opened. -EBUSY: the other is open. -EBADF: this is no caller's.
   -ENFILE: it has no pass to give. -ENOMEM: it has one, and there is no memory. They are asked in this order, and with
   each both handles stay as they were. */
static inline int32_t defnulk_share(struct defnulk_handle *handle, struct defnulk_handle *other) {
    if (handle == NULL || other == NULL)
        return -EFAULT;
    if (!defnulk_has_room(handle, other, sizeof *other))
        return -EINVAL;
    return defnulk_raw_share(handle, other);
}

/* Opens another handle, which is closed, for the port of a device: of the last device that has none, so the first
   such call is of the last device. Its number is written to `device`, and stays as it was with an error. -EBUSY: the
   other is open. -EBADF: this is no caller's. -ENFILE: no device is left, or no pass. -ENOMEM: there are both, and no
   memory. They are asked in this order, and with each both handles stay as they were. */
static inline int32_t defnulk_port(struct defnulk_handle *handle, struct defnulk_handle *other, size_t *device) {
    if (handle == NULL || other == NULL || device == NULL)
        return -EFAULT;
    if (!defnulk_has_room(handle, other, sizeof *other) || !defnulk_has_room(handle, device, sizeof *device)
        || !defnulk_has_room(other, device, sizeof *device))
        return -EINVAL;
    return defnulk_raw_port(handle, other, device);
}

/* Closes a handle, of either kind, and frees what it had; the server with its last handle. Its pass, and a device's
   port, don't come back: no handle gets them again. A closed handle stays closed. -EBADF: the handle is closed. */
static inline int32_t defnulk_close(struct defnulk_handle *handle) {
    if (handle == NULL)
        return -EFAULT;
    return defnulk_raw_close(handle);
}

/* ---- Calls of callers */

/* Carries out a call of ioctl that the file makes with this number (0x3b80 to 0x3b86 and 0x3b89 of linux/iommufd.h,
   0x3bf0 and 0x3bf1, DIRTY_ENABLE and DIRTY_REPORT, of Defnulk's own: docs/SCRIPT.md has their structures) and these
   bytes: the kernel's own structure, and behind it the array that the kernel reads by a pointer (struct
   iommu_iova_range of IOAS_ALLOW_IOVAS). Pointers in the structure are ignored, and come back 0. What the kernel writes
   back, the structure with its answer, and behind it the array of IOAS_IOVA_RANGES or the words of a DIRTY_REPORT,
   stands at the front of `room`, and `written` says how many bytes that is: at most 64, but for IOAS_IOVA_RANGES 32 and
   16 for each range that it was given a place for; what of it `room` has no place for isn't written. The rest of `room`
   stays. 0, or the errno that the kernel's call has, DEFNULK_NOT_NOW, -EBADF, -ENOMEM (a refusal of the server, too:
   then a limit of pinned pages or the pool is at its end); -EINVAL where the room has less than DEFNULK_LEAST_ROOM
   bytes. An UNMAP that has to wait for a device is -EAGAIN, or -EDEADLK after a hundred tries: it is called again once
   the device's port was flushed. Each call makes a record, a refused one and each try of an UNMAP too, but for
   IOAS_IOVA_RANGES, a DIRTY_REPORT that doesn't clear, bytes that spell no command, and want of memory. */
static inline int32_t defnulk_ioctl(struct defnulk_handle *handle, uint16_t file, uint32_t number, const void *bytes,
                                    size_t len, void *room, size_t room_len, size_t *written) {
    if (handle == NULL || (bytes == NULL && len > 0) || room == NULL || written == NULL)
        return -EFAULT;
    if (!defnulk_is_array(bytes, len, 1) || !defnulk_is_array(room, room_len, 1)
        || !defnulk_has_room(handle, written, sizeof *written) || !defnulk_apart(handle, sizeof *handle, bytes, len)
        || !defnulk_apart(handle, sizeof *handle, room, room_len) || !defnulk_apart(bytes, len, room, room_len)
        || !defnulk_apart(written, sizeof *written, bytes, len)
        || !defnulk_apart(written, sizeof *written, room, room_len))
        return -EINVAL;
    return defnulk_raw_ioctl(handle, file, number, defnulk_bytes(bytes), len, (uint8_t *)room, room_len, written);
}

/* Gives a user a page at this user address, a multiple of 4096 below 2^48. The value is the number of its frame. */
static inline int32_t defnulk_user_map(struct defnulk_handle *handle, uint16_t user, uint64_t va,
                                       struct defnulk_outcome *out) {
    int32_t fit = defnulk_test(handle, NULL, 0, out);
    return fit != 0 ? fit : defnulk_raw_user_map(handle, user, va, out);
}

/* Takes the page at this user address out of a user's memory. A page that is pinned keeps its frame until it isn't. */
static inline int32_t defnulk_user_unmap(struct defnulk_handle *handle, uint16_t user, uint64_t va,
                                         struct defnulk_outcome *out) {
    int32_t fit = defnulk_test(handle, NULL, 0, out);
    return fit != 0 ? fit : defnulk_raw_user_unmap(handle, user, va, out);
}

/* A user writes 1 to 64 bytes of its own memory, in one page. Another length is -EINVAL, with no record. */
static inline int32_t defnulk_user_write(struct defnulk_handle *handle, uint16_t user, uint64_t va, const void *bytes,
                                         size_t len, struct defnulk_outcome *out) {
    int32_t fit = defnulk_test(handle, bytes, len, out);
    return fit != 0 ? fit : defnulk_raw_user_write(handle, user, va, defnulk_bytes(bytes), len, out);
}

/* A user reads 1 to 64 bytes of its own memory, in one page. It makes no record. The value is how many bytes were
   read: `len`, or 0 with an error, which leaves the buffer as it was. */
static inline int32_t defnulk_user_read(struct defnulk_handle *handle, uint16_t user, uint64_t va, void *buffer,
                                        size_t len, struct defnulk_outcome *out) {
    int32_t fit = defnulk_test(handle, buffer, len, out);
    if (fit == 0 && buffer == NULL)
        fit = -EFAULT;
    return fit != 0 ? fit : defnulk_raw_user_read(handle, user, va, (uint8_t *)buffer, len, out);
}

/* Binds a device to a file. The value is the id of its object in the file. */
static inline int32_t defnulk_bind(struct defnulk_handle *handle, uint16_t file, uint16_t device,
                                   struct defnulk_outcome *out) {
    int32_t fit = defnulk_test(handle, NULL, 0, out);
    return fit != 0 ? fit : defnulk_raw_bind(handle, file, device, out);
}

/* Takes the device of this id away from its file. */
static inline int32_t defnulk_unbind(struct defnulk_handle *handle, uint16_t file, uint32_t id,
                                     struct defnulk_outcome *out) {
    int32_t fit = defnulk_test(handle, NULL, 0, out);
    return fit != 0 ? fit : defnulk_raw_unbind(handle, file, id, out);
}

/* Closes a file of the server: its objects go. -EBUSY while a device is bound to it, or it has an access object. */
static inline int32_t defnulk_close_file(struct defnulk_handle *handle, uint16_t file, struct defnulk_outcome *out) {
    int32_t fit = defnulk_test(handle, NULL, 0, out);
    return fit != 0 ? fit : defnulk_raw_close_file(handle, file, out);
}

/* How many pinned pages a user has: the value. It makes no record. */
static inline int32_t defnulk_held(struct defnulk_handle *handle, uint16_t user, struct defnulk_outcome *out) {
    int32_t fit = defnulk_test(handle, NULL, 0, out);
    return fit != 0 ? fit : defnulk_raw_held(handle, user, out);
}

/* How many frames of the pool are free: the value. It makes no record. */
static inline int32_t defnulk_free_frames(struct defnulk_handle *handle, struct defnulk_outcome *out) {
    int32_t fit = defnulk_test(handle, NULL, 0, out);
    return fit != 0 ? fit : defnulk_raw_free_frames(handle, out);
}

/* The journal of the records that there are when the call is served, whichever handles made them; proved is that all
   which this handle has seen are in it. They are bytes of version 2 of docs/JOURNAL.md, of which `iommufd audit` says
   whether a server may have made these records. They stand at the front of `room`, as far as that has place, and its
   rest stays; `written` says how many bytes the journal has. Where these are more than room_len, the call is made again
   with more room (other handles may make further records meanwhile). `room` may be null where room_len is 0. It makes
   no record. -EBADF, -ENOMEM, DEFNULK_NOT_NOW, and -EINVAL where a record has no spelling: none that these calls make,
   though no proof says so. With each of these `written` is 0, and `room` stays as it was. */
static inline int32_t defnulk_journal(struct defnulk_handle *handle, void *room, size_t room_len, size_t *written) {
    uint8_t none[1];
    if (handle == NULL || (room == NULL && room_len > 0) || written == NULL)
        return -EFAULT;
    if (!defnulk_is_array(room, room_len, 1) || !defnulk_has_room(handle, written, sizeof *written)
        || !defnulk_apart(handle, sizeof *handle, room, room_len)
        || !defnulk_apart(written, sizeof *written, room, room_len))
        return -EINVAL;
    return defnulk_raw_journal(handle, room != NULL ? (uint8_t *)room : none, room_len, written);
}

/* ---- Access objects, by a caller's handle: pages that a driver pins, reads and writes */

/* Makes an access object in the file. The value is its id. */
static inline int32_t defnulk_access_create(struct defnulk_handle *handle, uint16_t file,
                                            struct defnulk_outcome *out) {
    int32_t fit = defnulk_test(handle, NULL, 0, out);
    return fit != 0 ? fit : defnulk_raw_access_create(handle, file, out);
}

/* Attaches it to the address space of this id. */
static inline int32_t defnulk_access_attach(struct defnulk_handle *handle, uint16_t file, uint32_t access,
                                            uint32_t ioas, struct defnulk_outcome *out) {
    int32_t fit = defnulk_test(handle, NULL, 0, out);
    return fit != 0 ? fit : defnulk_raw_access_attach(handle, file, access, ioas, out);
}

/* Ends its attachment. -EBUSY while it holds a pin. */
static inline int32_t defnulk_access_detach(struct defnulk_handle *handle, uint16_t file, uint32_t access,
                                            struct defnulk_outcome *out) {
    int32_t fit = defnulk_test(handle, NULL, 0, out);
    return fit != 0 ? fit : defnulk_raw_access_detach(handle, file, access, out);
}

/* Pins the pages of its address space from `iova` on, `length` bytes, both multiples of 4096; for writes too, where
   `write` isn't 0. */
static inline int32_t defnulk_access_pin(struct defnulk_handle *handle, uint16_t file, uint32_t access, uint64_t iova,
                                         uint64_t length, uint8_t write, struct defnulk_outcome *out) {
    int32_t fit = defnulk_test(handle, NULL, 0, out);
    return fit != 0 ? fit : defnulk_raw_access_pin(handle, file, access, iova, length, write, out);
}

/* Takes one of its pins of just these pages away. */
static inline int32_t defnulk_access_unpin(struct defnulk_handle *handle, uint16_t file, uint32_t access,
                                           uint64_t iova, uint64_t length, uint8_t write, struct defnulk_outcome *out) {
    int32_t fit = defnulk_test(handle, NULL, 0, out);
    return fit != 0 ? fit : defnulk_raw_access_unpin(handle, file, access, iova, length, write, out);
}

/* Writes 1 to 64 bytes at an address that one of its pins for writes covers. Another length is -EINVAL, with no
   record. */
static inline int32_t defnulk_access_write(struct defnulk_handle *handle, uint16_t file, uint32_t access, uint64_t iova,
                                           const void *bytes, size_t len, struct defnulk_outcome *out) {
    int32_t fit = defnulk_test(handle, bytes, len, out);
    return fit != 0 ? fit : defnulk_raw_access_write(handle, file, access, iova, defnulk_bytes(bytes), len, out);
}

/* Reads 1 to 64 bytes at an address that one of its pins covers; as defnulk_user_read does. */
static inline int32_t defnulk_access_read(struct defnulk_handle *handle, uint16_t file, uint32_t access, uint64_t iova,
                                          void *buffer, size_t len, struct defnulk_outcome *out) {
    int32_t fit = defnulk_test(handle, buffer, len, out);
    if (fit == 0 && buffer == NULL)
        fit = -EFAULT;
    return fit != 0 ? fit : defnulk_raw_access_read(handle, file, access, iova, (uint8_t *)buffer, len, out);
}

/* Tells the leaving areas in which it holds a pin, for which an UNMAP waits. Their spans stand at the front of `spans`,
   by rising start, as many as that has places for; its rest stays. The value is how many there are: where that is more
   than `count`, the call is made again with more places. `spans` may be null where `count` is 0. It makes no record.
   With an error `spans` stays as it was. */
static inline int32_t defnulk_notices(struct defnulk_handle *handle, uint16_t file, uint32_t access,
                                      struct defnulk_span *spans, size_t count, struct defnulk_outcome *out) {
    struct defnulk_span none;
    int32_t fit = defnulk_test(handle, spans, defnulk_size(count, sizeof *spans), out);
    return fit != 0 ? fit : defnulk_raw_notices(handle, file, access, spans != NULL ? spans : &none, count, out);
}

/* ---- Calls of a device's port */

/* The device reads bytes from this address on, in pieces that are cut at pages and at 64 bytes. The value is how
   many were read; these stand in the buffer, and its rest stays. With DEFNULK_NOT_NOW the call is made again for the
   rest. -EFAULT with outcome.fault: the IOMMU denied the next piece. It makes no record. A page that passed the port
   may keep, with its rights: accesses that it has the right to then pass there until the port is flushed, attached or
   detached, and an UNMAP of the page waits for that. */
static inline int32_t defnulk_port_read(struct defnulk_handle *handle, uint64_t iova, void *buffer, size_t len,
                                        struct defnulk_outcome *out) {
    int32_t fit = defnulk_test(handle, buffer, len, out);
    if (fit == 0 && buffer == NULL)
        fit = -EFAULT;
    return fit != 0 ? fit : defnulk_raw_port_read(handle, iova, (uint8_t *)buffer, len, out);
}

/* The device writes these bytes, in such pieces, each by one record. The value is how many were written, and `at` the
   place of the last record. Results are as of defnulk_port_read. */
static inline int32_t defnulk_port_write(struct defnulk_handle *handle, uint64_t iova, const void *bytes, size_t len,
                                         struct defnulk_outcome *out) {
    int32_t fit = defnulk_test(handle, bytes, len, out);
    return fit != 0 ? fit : defnulk_raw_port_write(handle, iova, defnulk_bytes(bytes), len, out);
}

/* Tells in which frame the device has the page of this address, with the right to write where `write` isn't 0, else to
   read: for a program that holds the frames' memory itself, and does the device's accesses there. Until the device's
   next flush, attachment or detachment by this port the frame is given to nobody else, whatever anybody unmaps. So long
   the program may keep the translation, for accesses of the rights that it tells; it gives it up before it calls one of
   these three, and an UNMAP of the page waits for that. The port may keep the page, too, as of defnulk_port_read. The
   call makes no record; the server knows nothing of the program's accesses, so they make none either, and mark no page
   as written (DIRTY_REPORT). -EFAULT: no live area maps the page for the device with that right, and the port keeps no
   such page. -EBADF, DEFNULK_NOT_NOW. With each `translation` stays as it was. */
static inline int32_t defnulk_port_translate(struct defnulk_handle *handle, uint64_t iova, uint8_t write,
                                             struct defnulk_translation *translation) {
    if (handle == NULL || translation == NULL)
        return -EFAULT;
    if (!defnulk_has_room(handle, translation, sizeof *translation))
        return -EINVAL;
    return defnulk_raw_port_translate(handle, iova, write, translation);
}

/* The device has forgotten what it had cached, and so does the port, however the call ends: what an UNMAP waits for on
   the device's account is done where it answers 0. */
static inline int32_t defnulk_port_flush(struct defnulk_handle *handle, struct defnulk_outcome *out) {
    int32_t fit = defnulk_test(handle, NULL, 0, out);
    return fit != 0 ? fit : defnulk_raw_port_flush(handle, out);
}

/* Attaches the device to the address space or the hardware page table of this id, in the file that it is bound to. The
   value is the id of the page table used. The port forgets all pages, however the call ends. */
static inline int32_t defnulk_port_attach(struct defnulk_handle *handle, uint32_t pt_id, struct defnulk_outcome *out) {
    int32_t fit = defnulk_test(handle, NULL, 0, out);
    return fit != 0 ? fit : defnulk_raw_port_attach(handle, pt_id, out);
}

/* Ends the device's attachment. The port forgets all pages, however the call ends. */
static inline int32_t defnulk_port_detach(struct defnulk_handle *handle, struct defnulk_outcome *out) {
    int32_t fit = defnulk_test(handle, NULL, 0, out);
    return fit != 0 ? fit : defnulk_raw_port_detach(handle, out);
}

#ifdef __cplusplus
}
#endif

#endif
