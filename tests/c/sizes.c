/* Gives ioctl each of its structures at every size that it may have and may not have, by the C library: cut short, with
 * a tail of zeros, with one byte of the tail set, longer than any structure may be, and with bytes behind it. What is
 * wrong with the bytes is told before anything is looked up, so the file is one that isn't there: ENOENT says that the
 * bytes spelt a command. It prints nothing where all is as it has to be. `tests/c/run` builds and runs it.
 */
#include <stdio.h>
#include <string.h>

#include "defnulk_iommufd.h"

enum { MOST = 4096, RANGE = 16, NO_FILE = 9, EVERY = 64 };

/* A command, the words of its structure behind the size, and how many bytes the whole has. Fields of eight bytes are
 * two words, the low one first. */
struct shape {
    const char *name;
    uint32_t number;
    uint32_t len;
    uint32_t words[9];
};

/* Values that nothing but the file can be wrong with. */
static const struct shape SHAPES[] = {
    { "DESTROY", DEFNULK_DESTROY, 8, { 1 } },
    { "IOAS_ALLOC", DEFNULK_IOAS_ALLOC, 12, { 0, 0 } },
    { "IOAS_ALLOW_IOVAS", DEFNULK_IOAS_ALLOW_IOVAS, 24, { 1, 0, 0, 0, 0 } },
    { "IOAS_COPY", DEFNULK_IOAS_COPY, 40, { 7, 1, 2, 0x1000, 0, 0x1000, 0, 0x1000, 0 } },
    { "IOAS_IOVA_RANGES", DEFNULK_IOAS_IOVA_RANGES, 32, { 1, 0, 0, 0, 0, 0, 0 } },
    { "IOAS_MAP", DEFNULK_IOAS_MAP, 40, { 7, 1, 0, 0x10000, 0, 0x1000, 0, 0x1000, 0 } },
    { "IOAS_UNMAP", DEFNULK_IOAS_UNMAP, 24, { 1, 0x1000, 0, 0x1000, 0 } },
    { "HWPT_ALLOC", DEFNULK_HWPT_ALLOC, 24, { 0, 1, 1, 0, 0 } },
    { "DIRTY_ENABLE", DEFNULK_DIRTY_ENABLE, 16, { 1, 1, 0 } },
    { "DIRTY_REPORT", DEFNULK_DIRTY_REPORT, 32, { 1, 0, 0, 0x1000, 0, 0x1000, 0 } },
};

static struct defnulk_handle caller = DEFNULK_CLOSED;
static uint8_t bytes[MOST + RANGE + 1];
static int wrong = 0;

static void put_word(uint8_t *at, uint32_t word) {
    for (int i = 0; i < 4; i++)
        at[i] = (uint8_t)(word >> 8 * i);
}

/* Puts the structure down with this size, and zeros behind it. */
static void spell(const struct shape *shape, uint32_t size) {
    memset(bytes, 0, sizeof bytes);
    put_word(bytes, size);
    for (uint32_t i = 0; 4 * i + 4 < shape->len; i++)
        put_word(bytes + 4 * i + 4, shape->words[i]);
}

/* Makes the call with the first bytes, which has to end so and write nothing back. */
static void expect(const struct shape *shape, uint32_t len, int32_t wanted, const char *what) {
    uint8_t room[DEFNULK_LEAST_ROOM];
    size_t written = 1;
    int32_t status = defnulk_ioctl(&caller, NO_FILE, shape->number, bytes, len, room, sizeof room, &written);
    if (status == wanted && written == 0)
        return;
    printf("%s, %s, %u bytes: status %d and %zu bytes back, wanted %d\n", shape->name, what, (unsigned)len,
           (int)status, written, (int)wanted);
    wrong = 1;
}

/* Fewer bytes than the structure has, or a size that says so. */
static void cut_short(const struct shape *shape) {
    for (uint32_t len = 0; len < shape->len; len++) {
        spell(shape, shape->len);
        expect(shape, len, -EINVAL, "cut");
        spell(shape, len);
        expect(shape, shape->len, -EINVAL, "with a smaller size");
    }
}

/* One byte of the tail set, of a structure of this size. */
static void set_tail(const struct shape *shape, uint32_t size, uint32_t at) {
    spell(shape, size);
    bytes[at] = 1;
    expect(shape, size, -E2BIG, "with a byte of its tail set");
}

/* A tail of zeros, and with each of its bytes set, of every size; of most sizes with the first and the last alone. */
static void with_tail(const struct shape *shape) {
    for (uint32_t size = shape->len; size <= MOST; size++) {
        spell(shape, size);
        expect(shape, size, -ENOENT, "with a tail of zeros");
        expect(shape, size + 1, -EINVAL, "with one byte more");
        int all = size <= shape->len + EVERY || size + 2 > MOST;
        for (uint32_t at = shape->len; at < size; at++)
            if (all || at == shape->len || at + 1 == size)
                set_tail(shape, size, at);
    }
    spell(shape, MOST + 1);
    expect(shape, MOST + 1, -E2BIG, "longer than a structure may be");
}

/* Bytes that aren't the entries that a list says it has: too few, too many, and none of more than there can be. */
static void with_entries(const struct shape *shape) {
    spell(shape, shape->len);
    put_word(bytes + 8, 1);
    expect(shape, shape->len, -EINVAL, "without its entry");
    expect(shape, shape->len + RANGE - 1, -EINVAL, "with a cut entry");
    expect(shape, shape->len + RANGE, -ENOENT, "with its entry");
    expect(shape, shape->len + RANGE + 1, -EINVAL, "with more than its entry");
    put_word(bytes + 8, UINT32_MAX);
    expect(shape, shape->len, -EINVAL, "without so many entries");
}

int main(void) {
    static const uint64_t users[] = { 1 };
    static const uint16_t files[] = { 1 };
    const struct defnulk_config config = {
        .pool = 1, .users = users, .user_count = 1, .files = files, .file_count = 1, .passes = 1, .lanes = 1, .cache = 1
    };
    if (defnulk_open(&config, &caller) != 0) {
        printf("no server\n");
        return 1;
    }
    for (size_t i = 0; i < sizeof SHAPES / sizeof *SHAPES; i++) {
        cut_short(&SHAPES[i]);
        with_tail(&SHAPES[i]);
        if (SHAPES[i].number == DEFNULK_IOAS_ALLOW_IOVAS)
            with_entries(&SHAPES[i]);
    }
    defnulk_close(&caller);
    return wrong;
}
