#include "script.h"

#include <inttypes.h>
#include <stdlib.h>
#include <string.h>

#include "memory.h"

/* How often a step is tried, how many words a line may have, and how many pages a port keeps where the head doesn't
   say it. */
enum { TRIES = 1000, WORDS = 24, CACHE = 16 };

/* Where a status is told: the step has no call of the interface. */
enum { NO_CALL = 1 };

/* What stands where nothing was read. */
enum { UNREAD = 0x11 };

void fail(const char *why) {
    fprintf(stderr, "%s\n", why);
    exit(1);
}

/* ---- Reading */

/* All of standard input, with a null character behind it. */
static char *read_all(void) {
    size_t len = 0, room = 1 << 16, count = 1;
    char *text = malloc(room);
    while (text != NULL && count > 0) {
        count = fread(text + len, 1, room - len - 1, stdin);
        len += count;
        if (room - len == 1)
            text = realloc(text, room *= 2);
    }
    if (text == NULL)
        fail("no memory");
    text[len] = '\0';
    return text;
}

/* The next line that isn't skipped, or null at the end. */
static char *next_line(char **rest) {
    for (char *line = *rest; *line != '\0'; line = *rest) {
        char *end = line + strcspn(line, "\n");
        *rest = *end == '\n' ? end + 1 : end;
        *end = '\0';
        if (*line != '\0' && *line != '#')
            return line;
    }
    return NULL;
}

/* Parts a line at its spaces, and answers how many words it has. */
static size_t split(char *line, char **words) {
    size_t count = 0;
    for (char *word = strtok(line, " "); word != NULL && count < WORDS; word = strtok(NULL, " "))
        words[count++] = word;
    return count;
}

static uint64_t decimal(const char *word) {
    return strtoull(word, NULL, 10);
}

static uint64_t hexadecimal(const char *word) {
    return strtoull(word, NULL, 16);
}

/* Puts a field of bytes in hex, `-` for none, over its own digits. */
static void read_bytes(char *word, struct fields *fields) {
    fields->bytes = (uint8_t *)word;
    fields->len = *word == '-' ? 0 : strlen(word) / 2;
    for (size_t i = 0; i < fields->len; i++) {
        const char digits[3] = { word[2 * i], word[2 * i + 1], '\0' };
        fields->bytes[i] = (uint8_t)hexadecimal(digits);
    }
}

/* Of two words, the one for writing and the one for none are 1. */
static uint64_t read_number(char kind, const char *word) {
    if (kind == 'w')
        return strcmp(word, "w") == 0 || strcmp(word, "none") == 0;
    return kind == 'x' ? hexadecimal(word) : decimal(word);
}

static void read_fields(const char *kinds, char **words, struct fields *fields) {
    size_t numbers = 0;
    memset(fields, 0, sizeof *fields);
    for (size_t i = 0; kinds[i] != '\0'; i++) {
        if (kinds[i] == 'b')
            read_bytes(words[i], fields);
        else
            fields->number[numbers++] = read_number(kinds[i], words[i]);
    }
}

/* ---- The head */

static void read_user(struct head *head, char **words) {
    if (head->config.user_count == USERS)
        fail("too many users");
    head->users[head->config.user_count++] = decimal(words[1]);
}

static void read_file(struct head *head, char **words) {
    if (head->config.file_count == FILES)
        fail("too many files");
    head->files[head->config.file_count++] = (uint16_t)decimal(words[1]);
}

/* Reads a reserved span, `<first>-<last>`, of the last device so far. */
static void read_reserved(struct head *head, char *word) {
    if (head->config.reserved_count == RESERVED)
        fail("too many reserved spans");
    struct defnulk_reserved *span = &head->reserved[head->config.reserved_count++];
    char *between;
    span->first = strtoull(word, &between, 16);
    span->last = hexadecimal(between + 1);
    span->device = (uint16_t)head->config.device_count;
}

static void read_device(struct head *head, char **words, size_t count) {
    if (head->config.device_count == DEVICES)
        fail("too many devices");
    struct defnulk_device *device = &head->devices[head->config.device_count++];
    device->source = (uint16_t)hexadecimal(words[1]);
    device->width = (uint8_t)decimal(words[2]);
    device->x86 = count > 3 && strcmp(words[3], "x86") == 0;
    for (size_t i = 3 + device->x86; i < count; i++)
        read_reserved(head, words[i]);
}

static void read_cache(struct head *head, char **words) {
    head->config.cache = (uint16_t)decimal(words[1]);
    head->keeps = 1;
}

static void read_head_line(struct head *head, char *line) {
    char *words[WORDS];
    size_t count = split(line, words);
    if (strcmp(words[0], "pool") == 0)
        head->config.pool = (uint32_t)decimal(words[1]);
    else if (strcmp(words[0], "user") == 0)
        read_user(head, words);
    else if (strcmp(words[0], "file") == 0)
        read_file(head, words);
    else if (strcmp(words[0], "device") == 0)
        read_device(head, words, count);
    else if (strcmp(words[0], "cache") == 0)
        read_cache(head, words);
    else if (strcmp(words[0], "lanes") == 0)
        head->config.lanes = (uint16_t)decimal(words[1]);
    else
        fail("no such line in a head");
}

/* Reads the head, up to the line `begin`. */
static void read_head(struct head *head, char **rest) {
    head->config.users = head->users;
    head->config.files = head->files;
    head->config.devices = head->devices;
    head->config.reserved = head->reserved;
    head->config.lanes = 1;
    head->config.cache = CACHE;
    for (char *line = next_line(rest); line != NULL && strcmp(line, "begin") != 0; line = next_line(rest))
        read_head_line(head, line);
}

/* ---- The caller's calls */

static int32_t call_ioctl(struct session *s, const struct fields *f, struct defnulk_outcome *out) {
    (void)out;
    return defnulk_ioctl(&s->caller, (uint16_t)f->number[0], (uint32_t)f->number[1], f->bytes, f->len, s->room,
                         sizeof s->room, &s->written);
}

static int32_t call_close(struct session *s, const struct fields *f, struct defnulk_outcome *out) {
    return defnulk_close_file(&s->caller, (uint16_t)f->number[0], out);
}

static int32_t call_user_map(struct session *s, const struct fields *f, struct defnulk_outcome *out) {
    return defnulk_user_map(&s->caller, (uint16_t)f->number[0], f->number[1], out);
}

static int32_t call_user_unmap(struct session *s, const struct fields *f, struct defnulk_outcome *out) {
    return defnulk_user_unmap(&s->caller, (uint16_t)f->number[0], f->number[1], out);
}

/* Tests that a read has written no further than it tells. */
static int32_t read_so_far(struct session *s, uint64_t value, int32_t status) {
    s->done += (size_t)value;
    for (size_t i = s->done; i < LENGTH; i++)
        if (s->bytes[i] != UNREAD)
            fail("a byte that was not read has changed");
    return status;
}

static int32_t call_user_read(struct session *s, const struct fields *f, struct defnulk_outcome *out) {
    int32_t status =
        defnulk_user_read(&s->caller, (uint16_t)f->number[0], f->number[1], s->bytes, (size_t)f->number[2], out);
    return read_so_far(s, out->value, status);
}

static int32_t call_user_write(struct session *s, const struct fields *f, struct defnulk_outcome *out) {
    return defnulk_user_write(&s->caller, (uint16_t)f->number[0], f->number[1], f->bytes, f->len, out);
}

static int32_t call_bind(struct session *s, const struct fields *f, struct defnulk_outcome *out) {
    return defnulk_bind(&s->caller, (uint16_t)f->number[0], (uint16_t)f->number[1], out);
}

static int32_t call_unbind(struct session *s, const struct fields *f, struct defnulk_outcome *out) {
    return defnulk_unbind(&s->caller, (uint16_t)f->number[0], (uint32_t)f->number[1], out);
}

static int32_t call_access(struct session *s, const struct fields *f, struct defnulk_outcome *out) {
    return defnulk_access_create(&s->caller, (uint16_t)f->number[0], out);
}

static int32_t call_access_attach(struct session *s, const struct fields *f, struct defnulk_outcome *out) {
    return defnulk_access_attach(&s->caller, (uint16_t)f->number[0], (uint32_t)f->number[1], (uint32_t)f->number[2],
                                 out);
}

static int32_t call_access_detach(struct session *s, const struct fields *f, struct defnulk_outcome *out) {
    return defnulk_access_detach(&s->caller, (uint16_t)f->number[0], (uint32_t)f->number[1], out);
}

static int32_t call_pin(struct session *s, const struct fields *f, struct defnulk_outcome *out) {
    return defnulk_access_pin(&s->caller, (uint16_t)f->number[0], (uint32_t)f->number[1], f->number[2], f->number[3],
                              (uint8_t)f->number[4], out);
}

static int32_t call_unpin(struct session *s, const struct fields *f, struct defnulk_outcome *out) {
    return defnulk_access_unpin(&s->caller, (uint16_t)f->number[0], (uint32_t)f->number[1], f->number[2], f->number[3],
                                (uint8_t)f->number[4], out);
}

static int32_t call_access_read(struct session *s, const struct fields *f, struct defnulk_outcome *out) {
    int32_t status = defnulk_access_read(&s->caller, (uint16_t)f->number[0], (uint32_t)f->number[1], f->number[2],
                                         s->bytes, (size_t)f->number[3], out);
    return read_so_far(s, out->value, status);
}

static int32_t call_access_write(struct session *s, const struct fields *f, struct defnulk_outcome *out) {
    return defnulk_access_write(&s->caller, (uint16_t)f->number[0], (uint32_t)f->number[1], f->number[2], f->bytes,
                                f->len, out);
}

/* Asks how many notices there are, and then for just so many. */
static int32_t call_notices(struct session *s, const struct fields *f, struct defnulk_outcome *out) {
    uint16_t file = (uint16_t)f->number[0];
    uint32_t access = (uint32_t)f->number[1];
    int32_t status = defnulk_notices(&s->caller, file, access, NULL, 0, out);
    if (status != 0 || out->value > AREAS)
        return status;
    return defnulk_notices(&s->caller, file, access, s->spans, (size_t)out->value, out);
}

static int32_t call_free(struct session *s, const struct fields *f, struct defnulk_outcome *out) {
    (void)f;
    return defnulk_free_frames(&s->caller, out);
}

static int32_t call_held(struct session *s, const struct fields *f, struct defnulk_outcome *out) {
    return defnulk_held(&s->caller, (uint16_t)f->number[0], out);
}

/* ---- The ports' calls */

/* The port of the step's device, its first number; null where there is no such device. */
static struct defnulk_handle *port_of(struct session *s, const struct fields *f) {
    uint64_t device = f->number[0];
    return device >= 1 && device <= s->head->ports ? &s->ports[device] : NULL;
}

static int32_t call_attach(struct session *s, const struct fields *f, struct defnulk_outcome *out) {
    struct defnulk_handle *port = port_of(s, f);
    return port == NULL ? NO_CALL : defnulk_port_attach(port, (uint32_t)f->number[1], out);
}

static int32_t call_detach(struct session *s, const struct fields *f, struct defnulk_outcome *out) {
    struct defnulk_handle *port = port_of(s, f);
    return port == NULL ? NO_CALL : defnulk_port_detach(port, out);
}

static int32_t call_flush(struct session *s, const struct fields *f, struct defnulk_outcome *out) {
    struct defnulk_handle *port = port_of(s, f);
    return port == NULL ? NO_CALL : defnulk_port_flush(port, out);
}

/* The port for an access of so many bytes. Where ports keep no pages, there is none for an access of two pages, and it
 * is made to forget them first: where an area is leaving, an access by what is kept passes, and the program, which
 * keeps nothing, denies it. Any call to attach does so, and to object 0, which there never is, it changes nothing else.
 */
static struct defnulk_handle *port_for(struct session *s, const struct fields *f, uint64_t len) {
    struct defnulk_handle *port = port_of(s, f);
    struct defnulk_outcome out;
    if (port == NULL || s->head->keeps)
        return port;
    if (f->number[1] % PAGE + len > PAGE)
        return NULL;
    if (defnulk_port_attach(port, 0, &out) == 0)
        fail("a device was attached to object 0");
    return port;
}

static int32_t call_device_read(struct session *s, const struct fields *f, struct defnulk_outcome *out) {
    struct defnulk_handle *port = port_for(s, f, f->number[2]);
    if (port == NULL)
        return NO_CALL;
    int32_t status =
        defnulk_port_read(port, f->number[1] + s->done, s->bytes + s->done, (size_t)f->number[2] - s->done, out);
    return read_so_far(s, out->value, status);
}

static int32_t call_device_write(struct session *s, const struct fields *f, struct defnulk_outcome *out) {
    struct defnulk_handle *port = port_for(s, f, f->len);
    if (port == NULL)
        return NO_CALL;
    int32_t status = defnulk_port_write(port, f->number[1] + s->done, f->bytes + s->done, f->len - s->done, out);
    s->done += (size_t)out->value;
    return status;
}

static int32_t call_translate(struct session *s, const struct fields *f, struct defnulk_outcome *out) {
    struct defnulk_handle *port = port_of(s, f);
    (void)out;
    return port == NULL ? NO_CALL
                        : defnulk_port_translate(port, f->number[1], (uint8_t)f->number[2], &s->translation);
}

static int32_t call_memory(struct session *s, const struct fields *f, struct defnulk_outcome *out) {
    (void)s;
    (void)out;
    if (f->number[0] != 0)
        refuse_growths();
    else
        give_memory();
    return 0;
}

/* ---- The steps */

static const struct step steps[] = {
    { "ioctl", "dxb", EVENT, BACK, call_ioctl },
    { "close", "d", EVENT, NOTHING, call_close },
    { "umap", "dx", EVENT, FRAME, call_user_map },
    { "uunmap", "dx", EVENT, NOTHING, call_user_unmap },
    { "uread", "dxd", QUESTION, BYTES, call_user_read },
    { "uwrite", "dxb", EVENT, NOTHING, call_user_write },
    { "bind", "dd", EVENT, ID, call_bind },
    { "unbind", "dd", EVENT, NOTHING, call_unbind },
    { "attach", "dd", PORT_TURN, ID, call_attach },
    { "detach", "d", PORT_TURN, NOTHING, call_detach },
    { "flush", "d", PORT_TURN, NOTHING, call_flush },
    { "dread", "dxd", PORT_QUESTION, BYTES, call_device_read },
    { "dwrite", "dxb", PORT_WRITE, NOTHING, call_device_write },
    { "translate", "dxw", PORT_QUESTION, TRANSLATION, call_translate },
    { "access", "d", EVENT, ID, call_access },
    { "aattach", "ddd", EVENT, NOTHING, call_access_attach },
    { "adetach", "dd", EVENT, NOTHING, call_access_detach },
    { "apin", "ddxxw", EVENT, NOTHING, call_pin },
    { "aunpin", "ddxxw", EVENT, NOTHING, call_unpin },
    { "aread", "ddxd", QUESTION, BYTES, call_access_read },
    { "awrite", "ddxb", EVENT, NOTHING, call_access_write },
    { "notices", "dd", QUESTION, SPANS, call_notices },
    { "free", "", QUESTION, COUNT, call_free },
    { "held", "d", QUESTION, COUNT, call_held },
    { "memory", "w", NOBODY, NOTHING, call_memory },
};

static const struct step *step_of(const char *keyword) {
    for (size_t i = 0; i < sizeof steps / sizeof *steps; i++)
        if (strcmp(steps[i].keyword, keyword) == 0)
            return &steps[i];
    fail("no such step");
    return NULL;
}

static void read_line(char *text, struct line *line) {
    char *words[WORDS];
    size_t count = split(text, words);
    line->step = step_of(words[0]);
    if (count != 1 + strlen(line->step->kinds))
        fail("a step has other fields");
    read_fields(line->step->kinds, words + 1, &line->fields);
}

static int is_of_device(const struct step *step) {
    return step->maker == PORT_TURN || step->maker == PORT_QUESTION || step->maker == PORT_WRITE;
}

/* Reads the steps, and answers whether one of them is a device's. */
static int read_steps(struct script *script, char **rest) {
    int works = 0;
    size_t room = 0;
    for (char *text = next_line(rest); text != NULL; text = next_line(rest)) {
        if (script->count == room) {
            room = 2 * room + 64;
            script->lines = realloc(script->lines, room * sizeof *script->lines);
        }
        if (script->lines == NULL)
            fail("no memory");
        read_line(text, &script->lines[script->count]);
        works |= is_of_device(script->lines[script->count++].step);
    }
    return works;
}

void read_script(struct script *script) {
    memset(script, 0, sizeof *script);
    script->text = read_all();
    char *rest = script->text;
    read_head(&script->head, &rest);
    if (read_steps(script, &rest))
        script->head.ports = script->head.config.device_count;
    script->head.config.passes = (uint16_t)(1 + script->head.ports);
}

/* ---- Replies */

/* The names of causes, by their numbers; where there is none, want of memory. */
static const char *const causes[] = {
    "Memory", "Number", "Short", "Tail", "Unsupported", "Array", "Frames", "Account", "Absent", "Overlap", "Span", "Id",
    "InUse", "Bound", "Width", "Narrow", "Rights", "Leaving", "NotHeld", "Sum", "Align", "NoRight", "Reserved", "Full",
    "List", "Places", "Cross", "InterruptRange", "Unattached", "Pending", "Tracking",
};

void put_hex(FILE *to, const uint8_t *bytes, size_t len) {
    for (size_t i = 0; i < len; i++)
        fprintf(to, "%02x", bytes[i]);
}

static void tell_back(FILE *to, const struct session *session) {
    size_t count = session->written < ROOM ? session->written : ROOM;
    fprintf(to, "%" PRId32 "%s", -session->status, count > 0 ? " " : "");
    put_hex(to, session->room, count);
}

static void tell_spans(FILE *to, const struct defnulk_span *spans, uint64_t count) {
    fprintf(to, "ok");
    for (uint64_t i = 0; i < count; i++)
        fprintf(to, " %" PRIx64 "-%" PRIx64, spans[i].first, spans[i].last);
}

static void tell_bytes(FILE *to, const struct session *session) {
    fprintf(to, session->done > 0 ? "ok " : "ok");
    put_hex(to, session->bytes, session->done);
}

static void tell_translation(FILE *to, const struct defnulk_translation *translation) {
    fprintf(to, "ok frame %" PRIu32 " %s%s", translation->frame, translation->readable ? "r" : "",
            translation->writeable ? "w" : "");
}

static void tell_good(FILE *to, const struct session *session, enum told told) {
    switch (told) {
    case ID:
        fprintf(to, "ok id %" PRIu64, session->out.value);
        break;
    case FRAME:
        fprintf(to, "ok frame %" PRIu64, session->out.value);
        break;
    case COUNT:
        fprintf(to, "ok %" PRIu64, session->out.value);
        break;
    case BYTES:
        tell_bytes(to, session);
        break;
    case SPANS:
        tell_spans(to, session->spans, session->out.value);
        break;
    case TRANSLATION:
        tell_translation(to, &session->translation);
        break;
    default:
        fprintf(to, "ok");
    }
}

/* What has passed of an access that ends early, if anything has. */
static void tell_passed(FILE *to, const struct session *session, enum told told) {
    if (session->done > 0 && told == BYTES)
        tell_bytes(to, session);
    else if (session->done > 0)
        fprintf(to, "ok %zu", session->done);
    fprintf(to, session->done > 0 ? " " : "");
}

/* A denied access of the device that is the step's first number, at its second one. */
static void tell_fault(FILE *to, const struct session *session, const struct line *line) {
    const uint64_t *number = line->fields.number;
    fprintf(to, "fault %u source %04x page %" PRIx64 " %s", (unsigned)session->out.fault,
            (unsigned)session->head->devices[number[0] - 1].source, (number[1] + session->done) / PAGE,
            line->step->told == BYTES ? "read" : "write");
}

static void tell_error(FILE *to, const struct session *session, const struct line *line) {
    uint16_t cause = session->out.cause;
    tell_passed(to, session, line->step->told);
    if (session->out.fault != 0)
        tell_fault(to, session, line);
    else
        fprintf(to, "%" PRId32 " %s", -session->status, cause < sizeof causes / sizeof *causes ? causes[cause] : "?");
}

void tell(FILE *to, const struct session *session, const struct line *line) {
    enum told told = line->step->told;
    if (session->counts)
        fprintf(to, "%" PRIu64 " ", session->made);
    if (session->status == NO_CALL)
        fprintf(to, "-");
    else if (told == BACK)
        tell_back(to, session);
    else if (session->status == 0)
        tell_good(to, session, told);
    else if (told == TRANSLATION)
        fprintf(to, "%" PRId32, -session->status);
    else
        tell_error(to, session, line);
    fprintf(to, "\n");
}

/* ---- A session */

void open_ports(struct session *session) {
    size_t device;
    for (size_t i = session->head->ports; i > 0; i--)
        if (defnulk_port(&session->caller, &session->ports[i], &device) != 0 || device != i)
            fail("a port is not opened");
}

void open_session(struct session *session, const struct head *head) {
    session->head = head;
    session->records = 0;
    if (defnulk_open(&head->config, &session->caller) != 0)
        fail("the server is not opened");
    open_ports(session);
}

void close_session(struct session *session) {
    for (size_t i = 1; i <= session->head->ports; i++)
        if (defnulk_close(&session->ports[i]) != 0)
            fail("a port is not closed");
    if (defnulk_close(&session->caller) != 0)
        fail("the server is not closed");
}

static size_t journal_len(struct session *session) {
    size_t len = 0;
    if (defnulk_journal(&session->caller, NULL, 0, &len) != 0)
        fail("no journal");
    return len;
}

uint8_t *journal_of(struct session *session, size_t *len) {
    size_t written = 0;
    *len = journal_len(session);
    uint8_t *journal = malloc(*len);
    if (journal == NULL || defnulk_journal(&session->caller, journal, *len, &written) != 0 || written != *len)
        fail("no whole journal");
    return journal;
}

/* Makes the call of a step. */
static int32_t call(struct session *session, const struct line *line) {
    memset(&session->out, 0, sizeof session->out);
    watch_growths(1);
    int32_t status = line->step->call(session, &line->fields, &session->out);
    watch_growths(0);
    return status;
}

/* The same, and counts the records that it made: up to the place of the last one. An ioctl doesn't tell that: it made
   one where the journal has grown. */
static int32_t call_counted(struct session *session, const struct line *line) {
    int is_ioctl = line->step->told == BACK;
    size_t before = is_ioctl ? journal_len(session) : 0;
    int32_t status = call(session, line);
    uint64_t records = session->records;
    if (is_ioctl)
        records += journal_len(session) > before;
    else if (session->out.made)
        records = session->out.at + 1;
    session->made += records - session->records;
    session->records = records;
    return status;
}

void carry_on(struct session *session, const struct line *line) {
    session->status = DEFNULK_NOT_NOW;
    for (int i = 0; i < TRIES && session->status == DEFNULK_NOT_NOW; i++)
        session->status = session->counts ? call_counted(session, line) : call(session, line);
}

void carry_out(struct session *session, const struct line *line) {
    memset(session->bytes, UNREAD, sizeof session->bytes);
    session->done = 0;
    session->made = 0;
    session->written = 0;
    carry_on(session, line);
}
