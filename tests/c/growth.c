/* Carries a script out (script.h) by the C library with ample memory, and then again with growths refused:
 *
 *     growth < script
 *
 * Once for each growth of that run, with just this one refused: the step that meets it answers that there is no memory,
 * records and questions are as before, and the step, made again at once, has its line, as all later ones do. A few
 * steps do without a growth (may_do_without), and a device's reads and translations have their lines whatever is
 * refused to the cache of its port. And once for each step, with all growths refused there and no place for a record
 * left: the step is refused if it makes a record, and else it has its line. Ports keep pages here, so lines are
 * compared with those of the run with ample memory. Then opening is refused growths, and a journal is. It writes how
 * many growths were refused. A script with steps about memory is passed over. `tests/c/run` builds it.
 */
#include <inttypes.h>
#include <stdlib.h>
#include <string.h>

#include "memory.h"
#include "script.h"

/* What the run with ample memory had at a step. */
struct answer {
    char *line;
    char *looks;        /* the lines of the script's questions before it */
    size_t journal_len; /* the bytes of the journal before it */
    uint64_t made;      /* how many records it made */
    int told_spans;     /* whether it told notices */
};

static struct script script;
static struct session session;
static struct answer *answers;
static uint8_t *journal; /* of the whole run */
static size_t journal_len;
static uint64_t refused; /* growths so far */

/* Ends the program, at a step. */
static void fail_at(size_t at, const char *why) {
    fprintf(stderr, "step %zu, %s: %s\n", at + 1, script.lines[at].step->keyword, why);
    exit(1);
}

static void open_text(FILE **to, char **text, size_t *len) {
    *to = open_memstream(text, len);
    if (*to == NULL)
        fail("no memory");
}

/* ---- What a session shows */

/* The line of the step that was carried out last. */
static char *line_of(size_t at) {
    FILE *to;
    char *text;
    size_t len;
    open_text(&to, &text, &len);
    tell(to, &session, &script.lines[at]);
    fclose(to);
    return text;
}

static int has_line(size_t at) {
    char *text = line_of(at);
    int same = strcmp(text, answers[at].line) == 0;
    free_uncounted(text);
    return same;
}

/* Whether a step is a question that changes nothing, not even what a port keeps: also one by an ioctl. */
static int is_asking(const struct line *line) {
    const struct fields *fields = &line->fields;
    if (line->step->told != BACK)
        return line->step->maker == QUESTION;
    return fields->number[1] == DEFNULK_IOAS_IOVA_RANGES
        || (fields->number[1] == DEFNULK_DIRTY_REPORT && fields->len >= 12 && (fields->bytes[8] & 1) == 0);
}

/* The lines of all questions of the script, as they are answered now. */
static char *looks(void) {
    FILE *to;
    char *text;
    size_t len;
    open_text(&to, &text, &len);
    for (size_t i = 0; i < script.count; i++)
        if (is_asking(&script.lines[i])) {
            carry_out(&session, &script.lines[i]);
            tell(to, &session, &script.lines[i]);
        }
    fclose(to);
    return text;
}

static int has_looks(size_t at) {
    char *text = looks();
    int same = strcmp(text, answers[at].looks) == 0;
    free_uncounted(text);
    return same;
}

/* Whether the journal is the first so many bytes of that of the whole run, or some more of them. */
static int has_journal(size_t least) {
    size_t len;
    uint8_t *bytes = journal_of(&session, &len);
    int same = len >= least && len <= journal_len && memcmp(bytes, journal, len) == 0;
    free(bytes);
    return same;
}

static int has_just_journal(size_t wanted) {
    size_t len;
    uint8_t *bytes = journal_of(&session, &len);
    free(bytes);
    return len == wanted && has_journal(wanted);
}

/* ---- The run with ample memory */

static void answer(size_t at) {
    struct answer *answer = &answers[at];
    answer->looks = looks();
    free(journal_of(&session, &answer->journal_len));
    session.counts = 1;
    carry_out(&session, &script.lines[at]);
    session.counts = 0;
    answer->line = line_of(at);
    answer->made = session.made;
    answer->told_spans = script.lines[at].step->told == SPANS && session.status == 0 && session.out.value > 0;
}

static void run_with_memory(void) {
    give_memory();
    open_session(&session, &script.head);
    for (size_t at = 0; at < script.count; at++)
        answer(at);
    journal = journal_of(&session, &journal_len);
    close_session(&session);
}

/* ---- One growth refused */

static int is_want_of_memory(void) {
    return session.status == -ENOMEM && session.out.cause == 0 && session.out.fault == 0 && session.written == 0;
}

/* Has a port keep the pages that a write has passed, which it didn't where its cache was refused the growth. */
static void keep_pages(const struct fields *fields) {
    struct defnulk_translation translation;
    struct defnulk_handle *port = &session.ports[fields->number[0]];
    uint64_t last = fields->number[1] + fields->len - 1;
    for (uint64_t page = fields->number[1] / PAGE; page <= last / PAGE; page++)
        defnulk_port_translate(port, page * PAGE, 1, &translation);
}

/* The step has met the refusal, and told that: it has changed nothing, but for pieces of a write that have passed. */
static void test_refused(size_t at) {
    size_t done = session.done;
    if (!is_want_of_memory())
        fail_at(at, "a refused growth is told as something else");
    if (done == 0 ? !has_just_journal(answers[at].journal_len) : !has_journal(answers[at].journal_len))
        fail_at(at, "it was refused a growth, and made a record");
    if (done == 0 && !has_looks(at))
        fail_at(at, "it was refused a growth, and changed something");
    session.done = done;
}

/* Whether the step may do without a growth. Where there is no memory to sort them, ranges are compared each with each
   other, and so are areas whose pages are to be pinned; and a memory object takes the place of one that is gone. */
static int may_do_without(const struct line *line) {
    uint64_t number = line->fields.number[1];
    if (line->step->told != BACK)
        return strcmp(line->step->keyword, "attach") == 0;
    return number == DEFNULK_IOAS_ALLOW_IOVAS || number == DEFNULK_HWPT_ALLOC || number == DEFNULK_IOAS_MAP;
}

/* Whether it did so: it has its line, and made its record. */
static int did_without(size_t at) {
    size_t after = at + 1 < script.count ? answers[at + 1].journal_len : journal_len;
    return may_do_without(&script.lines[at]) && has_line(at) && has_just_journal(after);
}

/* The step that met the refusal is tested, and made again for its line where it doesn't have it yet. */
static void make_again(size_t at) {
    const struct line *line = &script.lines[at];
    enum maker maker = line->step->maker;
    if (maker == PORT_QUESTION) {
        if (!has_line(at))
            fail_at(at, "a port's read is refused for want of memory");
        carry_out(&session, line);
    } else if (maker == PORT_WRITE && has_line(at)) {
        keep_pages(&line->fields);
    } else if (!did_without(at)) {
        test_refused(at);
        carry_on(&session, line);
    }
}

/* Whether growth of this number was met, and refused. */
static int run_without(uint64_t number) {
    int met = 0;
    open_session(&session, &script.head);
    refuse_growth(number);
    for (size_t at = 0; at < script.count; at++) {
        carry_out(&session, &script.lines[at]);
        if (!met && growth_was_refused()) {
            met = 1;
            give_memory();
            make_again(at);
        }
        if (met && !has_line(at))
            fail_at(at, "another line after a refused growth");
    }
    give_memory();
    if (!has_just_journal(journal_len))
        fail("another journal after a refused growth");
    close_session(&session);
    refused += met;
    return met;
}

/* ---- All growths refused */

/* Makes records until there is no place for one: a user that there isn't gives up a page. */
static void fill_records(void) {
    struct defnulk_outcome out;
    int32_t status = -ENOENT;
    watch_growths(1);
    while (status == -ENOENT)
        status = defnulk_user_unmap(&session.caller, 0, 0, &out);
    watch_growths(0);
    if (status != -ENOMEM || out.made != 0)
        fail("a record with no place is told as something else");
}

/* Whether a step has to be refused for want of memory: it makes a record, or a list. */
static int has_to_grow(size_t at) {
    return answers[at].made > 0 || answers[at].told_spans;
}

/* Whether it may be refused so: what an ioctl is answered, and a structure's list, take memory. */
static int may_grow(size_t at) {
    return has_to_grow(at) || script.lines[at].step->told == BACK;
}

static void test_full(size_t at) {
    int wants = is_want_of_memory() && session.done == 0;
    if (has_to_grow(at) && !wants)
        fail_at(at, "a growth that has to be is not asked for");
    if (!has_line(at) && !(may_grow(at) && wants))
        fail_at(at, "with no memory left, another answer");
    refused += wants;
}

/* The step is made with no memory left, which changes no record, and then with ample memory. */
static void make_full(size_t at) {
    size_t before, after;
    refuse_growths();
    fill_records();
    uint8_t *first = journal_of(&session, &before);
    carry_out(&session, &script.lines[at]);
    test_full(at);
    uint8_t *second = journal_of(&session, &after);
    if (before != after || memcmp(first, second, before) != 0)
        fail_at(at, "with no memory left, a record was made");
    free(first);
    free(second);
    give_memory();
    carry_out(&session, &script.lines[at]);
    if (!has_line(at))
        fail_at(at, "another line after there was no memory");
}

static void run_full(size_t at) {
    open_session(&session, &script.head);
    for (size_t i = 0; i < at; i++)
        carry_out(&session, &script.lines[i]);
    make_full(at);
    close_session(&session);
}

/* ---- Opening and a journal */

static int32_t open_first(void) {
    return defnulk_open(&script.head.config, &session.caller);
}

static int32_t open_other(void) {
    static struct defnulk_handle other;
    int32_t status = defnulk_share(&session.caller, &other);
    if (status == 0)
        defnulk_close(&other);
    else if (defnulk_close(&other) != -EBADF)
        fail("a handle is open though its opening was refused");
    return status;
}

static int32_t open_port(void) {
    size_t device = 777, next = session.head->ports;
    while (next > 0 && session.ports[next].at != NULL)
        next--;
    int32_t status = defnulk_port(&session.caller, &session.ports[next], &device);
    if (status != 0 && (device != 777 || defnulk_close(&session.ports[next]) != -EBADF))
        fail("a port is open though its opening was refused");
    return status;
}

static int32_t ask_journal(void) {
    uint8_t room[1] = { 77 };
    size_t written = 777;
    int32_t status = defnulk_journal(&session.caller, room, sizeof room, &written);
    if (status != 0 && (written != 0 || room[0] != 77))
        fail("a journal is told though it was refused");
    return status;
}

/* Refuses each growth of the call in turn: each is told, and keeps no memory. */
static void refuse_each(int32_t (*call)(void)) {
    int32_t status = -ENOMEM;
    size_t blocks = blocks_in_use();
    for (uint64_t number = 1; status == -ENOMEM; number++) {
        refuse_growth(number);
        watch_growths(1);
        status = call();
        watch_growths(0);
        if (growth_was_refused() != (status == -ENOMEM) || (status != 0 && status != -ENOMEM))
            fail("a refused growth is not told");
        if (status != 0 && blocks_in_use() != blocks)
            fail("a call that was refused a growth keeps memory");
        refused += status != 0;
    }
    give_memory();
}

/* Opens a server, its ports and another caller's handle, which has a pass here, and asks for a journal. */
static void open_refused(void) {
    script.head.config.passes++;
    session.head = &script.head;
    refuse_each(open_first);
    for (size_t i = script.head.ports; i > 0; i--)
        refuse_each(open_port);
    refuse_each(open_other);
    refuse_each(ask_journal);
    close_session(&session);
}

/* ---- */

static int is_about_memory(void) {
    for (size_t i = 0; i < script.count; i++)
        if (script.lines[i].step->maker == NOBODY)
            return 1;
    return 0;
}

static void run_all(void) {
    run_with_memory();
    size_t blocks = blocks_in_use();
    for (uint64_t number = 1; run_without(number); number++)
        ;
    for (size_t at = 0; at < script.count; at++)
        run_full(at);
    open_refused();
    if (blocks_in_use() != blocks)
        fail("memory is kept by a server that is closed");
}

int main(void) {
    read_script(&script);
    script.head.keeps = 1;
    answers = calloc(script.count + 1, sizeof *answers);
    if (answers == NULL)
        fail("no memory");
    if (!is_about_memory())
        run_all();
    printf("%" PRIu64 "\n", refused);
    return 0;
}
