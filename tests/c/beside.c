/* Ten thousand random steps of two servers, which are asked the same. In one the device's port keeps pages, in the
   other it is made to forget them before each access. Each answer is the same, or while the device owes a flush for the
   page one of the two that it may have: the access passes by what is kept, or is denied. At the end the journal of the
   first stands on standard output, for an audit. `tests/c/run` builds it. */
#include <stdio.h>
#include <string.h>

#include "calls.h"

enum { STEPS = 10000, USER = 1, DEVICE = 1, SPACE_ID = 1, USER_PAGES = 4, MOST = 16 };

/* What comes of a step: both answer the same, or what the first port keeps passes alone, or anything else. */
enum come { SAME, PASSES_ALONE, WRONG };

/* One of the servers. */
struct side {
    struct defnulk_handle caller, port;
    int forgets;
    uint64_t forgot; /* how many records were made only to forget */
};

static struct side keeping, forgetting = { .forgets = 1 };

/* A place in a page of the device, and how many bytes from there on are read or written, all in that page. The pages
   are 1 to 6; where one is mapped, it is at one of the user's four. */
struct place {
    uint64_t page, offset;
    size_t len;
};

static uint64_t iova_of(struct place place) {
    return place.page * PAGE + place.offset;
}

static uint64_t user_page(struct place place) {
    return 0x10000 + place.page % USER_PAGES * PAGE;
}

/* What a call answers. */
struct answer {
    int32_t status;
    struct defnulk_outcome out;
    uint8_t bytes[MOST];
    uint64_t length; /* of an UNMAP */
};

/* Whether both answer the same, and at the same place, but for the records that were made to forget. */
static int is_same(const struct answer *a, const struct answer *b) {
    return a->status == b->status && a->out.value == b->out.value && a->out.made == b->out.made
        && a->out.cause == b->out.cause && a->out.fault == b->out.fault && a->length == b->length
        && (!a->out.made || a->out.at + forgetting.forgot == b->out.at)
        && memcmp(a->bytes, b->bytes, sizeof a->bytes) == 0;
}

/* ---- Steps of one side */

typedef struct answer step(struct side *side, struct place place, uint8_t byte);

/* Any call to attach makes a port forget; to object 0, which there never is, it changes nothing else. */
static void forget(struct side *side) {
    struct defnulk_outcome out;
    if (side->forgets && defnulk_port_attach(&side->port, 0, &out) < 0)
        side->forgot += out.made;
}

static struct answer read_place(struct side *side, struct place place, uint8_t byte) {
    struct answer answer = { 0 };
    (void)byte;
    forget(side);
    answer.status = defnulk_port_read(&side->port, iova_of(place), answer.bytes, place.len, &answer.out);
    return answer;
}

static struct answer write_place(struct side *side, struct place place, uint8_t byte) {
    struct answer answer = { 0 };
    uint8_t bytes[MOST];
    memset(bytes, byte, sizeof bytes);
    forget(side);
    answer.status = defnulk_port_write(&side->port, iova_of(place), bytes, place.len, &answer.out);
    return answer;
}

/* The user writes the bytes there. */
static struct answer fill_place(struct side *side, struct place place, uint8_t byte) {
    struct answer answer = { 0 };
    uint8_t bytes[MOST];
    uint64_t va = user_page(place) + place.offset;
    memset(bytes, byte, sizeof bytes);
    answer.status = defnulk_user_write(&side->caller, USER, va, bytes, place.len, &answer.out);
    return answer;
}

/* The bytes that the user has there. */
static struct answer users_bytes(struct side *side, struct place place, uint8_t byte) {
    struct answer answer = { 0 };
    uint64_t va = user_page(place) + place.offset;
    (void)byte;
    answer.status = defnulk_user_read(&side->caller, USER, va, answer.bytes, place.len, &answer.out);
    return answer;
}

static struct answer map_place(struct side *side, struct place place, uint8_t byte) {
    struct answer answer = { 0 };
    (void)byte;
    answer.status = map_page(&side->caller, user_page(place), place.page * PAGE);
    return answer;
}

static struct answer unmap_place(struct side *side, struct place place, uint8_t byte) {
    struct answer answer = { .length = PAGE };
    (void)byte;
    answer.status = unmap_bytes(&side->caller, place.page * PAGE, &answer.length);
    return answer;
}

/* Mostly a flush, and now and then a detachment or an attachment, by the number. */
static struct answer take_turn(struct side *side, struct place place, uint8_t number) {
    struct answer answer = { 0 };
    (void)place;
    if (number == 0)
        answer.status = defnulk_port_detach(&side->port, &answer.out);
    else if (number < 4)
        answer.status = defnulk_port_attach(&side->port, SPACE_ID, &answer.out);
    else
        answer.status = defnulk_port_flush(&side->port, &answer.out);
    return answer;
}

/* ---- Steps of both */

/* What the first answers to a step that has to have the same answer of both. */
static enum come both(step *step, struct place place, uint8_t byte, struct answer *first) {
    *first = step(&keeping, place, byte);
    struct answer second = step(&forgetting, place, byte);
    return is_same(first, &second) ? SAME : WRONG;
}

/* Whether the first passed and the second was denied for this reason. */
static int passed_alone(const struct answer *first, const struct answer *second, uint16_t reason) {
    return first->status == 0 && second->status == -EFAULT && second->out.fault == reason;
}

/* Where a read passes alone, what it read is what the user has there. */
static enum come read_both(struct place place, int owes) {
    struct answer first = read_place(&keeping, place, 0), second = read_place(&forgetting, place, 0);
    if (is_same(&first, &second))
        return SAME;
    struct answer users = users_bytes(&forgetting, place, 0);
    int are_users = memcmp(first.bytes, users.bytes, sizeof first.bytes) == 0;
    return owes && passed_alone(&first, &second, 6) && are_users ? PASSES_ALONE : WRONG;
}

/* Where a write passes alone, at the same place, the user writes the bytes on both sides. */
static enum come write_both(struct place place, uint8_t byte, int owes) {
    struct answer first = write_place(&keeping, place, byte), second = write_place(&forgetting, place, byte);
    if (is_same(&first, &second))
        return SAME;
    int is_alone = owes && passed_alone(&first, &second, 5) && first.out.made && second.out.made
        && first.out.at + forgetting.forgot == second.out.at;
    return is_alone && both(fill_place, place, byte, &first) == SAME && first.status == 0 ? PASSES_ALONE : WRONG;
}

/* An UNMAP that waits leaves a flush owed for the page, one that is done leaves none. */
static enum come unmap_both(struct place place, uint64_t *owed) {
    struct answer first;
    enum come come = both(unmap_place, place, 0, &first);
    if (first.status == -EAGAIN || first.status == -EDEADLK)
        *owed |= 1ull << place.page;
    else if (first.status == 0)
        *owed &= ~(1ull << place.page);
    return come;
}

static enum come turn_both(struct place place, uint8_t number, uint64_t *owed) {
    struct answer first;
    *owed = 0;
    return both(take_turn, place, number, &first);
}

/* ---- Random steps */

/* The next of a row of numbers in no order (xorshift). */
static uint64_t next_number(uint64_t number) {
    number ^= number << 13;
    number ^= number >> 7;
    return number ^ number << 17;
}

static struct place place_of(uint64_t random) {
    struct place place = { 1 + (random >> 8) % 6, (random >> 16) % 0x800, 1 + (random >> 32) % MOST };
    return place;
}

/* What comes of a random step. `owed` has a bit for each page for which the device owes a flush. */
static enum come random_step(uint64_t random, uint64_t *owed) {
    struct place place = place_of(random);
    struct answer first;
    int owes = (*owed >> place.page & 1) != 0;
    uint64_t kind = (random >> 40) % 16;
    if (kind < 5)
        return read_both(place, owes);
    if (kind < 8)
        return write_both(place, (uint8_t)(random >> 48), owes);
    if (kind < 11)
        return both(map_place, place, 0, &first);
    if (kind < 14)
        return unmap_both(place, owed);
    return turn_both(place, kind == 14 ? 4 : (uint8_t)((random >> 48) % 4), owed);
}

/* Whether all go well, and an access passes alone now and then. */
static int random_steps(void) {
    uint64_t random = 0x2545f4914f6cdd1d, owed = 0, alone = 0;
    for (int i = 0; i < STEPS; i++) {
        random = next_number(random);
        enum come come = random_step(random, &owed);
        if (come == WRONG) {
            fprintf(stderr, "step %d: another answer than the other server's\n", i);
            return 0;
        }
        alone += come == PASSES_ALONE;
    }
    return alone > 0;
}

/* ---- The servers */

/* A server whose user has its four pages, and whose device is bound, and attached to an address space. */
static int32_t open_side(struct side *side) {
    static const uint64_t users[] = { 8 };
    static const uint16_t files[] = { USER };
    static const struct defnulk_device devices[] = { { 0x10, 39, 1 } };
    const struct defnulk_config config = {
        .users = users, .user_count = 1, .files = files, .file_count = 1, .devices = devices, .device_count = 1,
        .pool = 16, .passes = 2, .lanes = 2, .cache = 4
    };
    struct defnulk_outcome out;
    size_t device;
    int32_t status = defnulk_open(&config, &side->caller);
    if (status == 0)
        status = defnulk_port(&side->caller, &side->port, &device);
    for (uint64_t page = 0; page < USER_PAGES && status == 0; page++)
        status = defnulk_user_map(&side->caller, USER, 0x10000 + page * PAGE, &out);
    if (status == 0)
        status = make_space(&side->caller);
    if (status == 0)
        status = defnulk_bind(&side->caller, 1, DEVICE, &out);
    return status == 0 ? defnulk_port_attach(&side->port, SPACE_ID, &out) : status;
}

static void close_side(struct side *side) {
    defnulk_close(&side->port);
    defnulk_close(&side->caller);
}

int main(void) {
    int good = open_side(&keeping) == 0 && open_side(&forgetting) == 0 && random_steps();
    good = put_journal(&keeping.caller) == 0 && good;
    close_side(&keeping);
    close_side(&forgetting);
    return good ? 0 : 1;
}
