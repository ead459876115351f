/* Scripts (docs/SCRIPT.md), each step of which is a call of the C library, and is told by a line as `iommufd session`
 * tells it. A step of a device goes by the device's port, all others go by one caller's handle. Two things differ.
 * defnulk_ioctl tells an errno and no cause, so the line of an ioctl that is refused is the errno alone, and behind it
 * what is written back, where something is. And a step for which a port has no call isn't carried out, and its line is
 * `-`: one of a device that isn't there, which has no port, and an access that crosses the end of a page, which a port
 * would make in two pieces.
 *
 * Ports are made to forget all pages before each access, as the program keeps none. But they keep them where the head
 * has a line `cache <pages>`: each keeps so many. Then accesses are made as they stand, the head may have a line
 * `lanes <lanes>`, and these are steps, too:
 *
 *     translate <device> <iova> <r|w>    answered by `ok frame <frame> <r|w|rw>`, or the errno
 *     memory <none|ample>                by `ok`: no memory is given from here on, or it is again
 *
 * Each line begins with the number of records that the step made, and an access that ends early tells what has passed
 * before, as `ok <bytes>` or, of a write, `ok <how many>`, and behind it why no more has.
 *
 * Good scripts alone are read: what a line may be is tested elsewhere.
 */
#ifndef SCRIPT_H
#define SCRIPT_H

#include <stdio.h>

#include "defnulk_iommufd.h"

enum { PAGE = 4096, NUMBERS = 5 };

/* The most that there may be of each. */
enum { USERS = 255, FILES = 1024, DEVICES = 256, RESERVED = 16 * DEVICES, AREAS = 65535, LENGTH = 255 };

/* What an ioctl writes back at most: 32 bytes, and 16 for each range. Each span that a device keeps parts one off. */
enum { ROOM = 32 + 16 * (RESERVED + DEVICES + 1) };

/* What a server is opened with. */
struct head {
    struct defnulk_config config;
    uint64_t users[USERS];
    uint16_t files[FILES];
    struct defnulk_device devices[DEVICES];
    struct defnulk_reserved reserved[RESERVED];
    size_t ports; /* how many have a port: all, or none where the script has no step of a device */
    int keeps;    /* whether ports keep pages */
};

/* The fields of a step: its numbers in their order, and its bytes. */
struct fields {
    uint64_t number[NUMBERS];
    uint8_t *bytes;
    size_t len;
};

/* Who makes a step: the caller, by an event or a question; the device's port, by a turn, a question or a write; or
   nobody, where it is about memory. */
enum maker { EVENT, QUESTION, PORT_TURN, PORT_QUESTION, PORT_WRITE, NOBODY };

/* What a good reply tells. */
enum told { NOTHING, ID, FRAME, COUNT, BYTES, SPANS, BACK, TRANSLATION };

struct session;

/* A step: its keyword, the kinds of its fields, who makes it, what a good reply tells, and the call by which it is
   carried out. A field is a decimal number (d), a hexadecimal one (x), a word of two (w), or bytes (b). */
struct step {
    const char *keyword;
    const char *kinds;
    enum maker maker;
    enum told told;
    int32_t (*call)(struct session *session, const struct fields *fields, struct defnulk_outcome *out);
};

/* A line of a script. */
struct line {
    const struct step *step;
    struct fields fields;
};

struct script {
    struct head head;
    struct line *lines;
    size_t count;
    char *text; /* has the bytes of its fields */
};

/* A server that is open, and what the last step left. */
struct session {
    const struct head *head;
    struct defnulk_handle caller;
    struct defnulk_handle ports[DEVICES + 1]; /* from device 1 on */
    int32_t status;
    struct defnulk_outcome out;
    size_t done;           /* how many bytes have passed */
    uint8_t bytes[LENGTH]; /* what was read */
    uint8_t room[ROOM];    /* what an ioctl wrote back */
    size_t written;
    struct defnulk_span spans[AREAS]; /* of notices */
    struct defnulk_translation translation;
    int counts;            /* whether records are counted */
    uint64_t records;      /* how many there are */
    uint64_t made;         /* how many of them the step made */
};

/* Ends the program. */
void fail(const char *why);

/* Reads the script on standard input. Its memory is the program's to the end. */
void read_script(struct script *script);

/* Opens a server for the session, and the ports. */
void open_session(struct session *session, const struct head *head);
void close_session(struct session *session);

/* Opens the ports alone, for a server that is open. */
void open_ports(struct session *session);

/* Carries a step out, again where it isn't served now. */
void carry_out(struct session *session, const struct line *line);

/* Carries out what is left of it, where a part has passed. */
void carry_on(struct session *session, const struct line *line);

/* Writes the line of the step that was carried out last. */
void tell(FILE *to, const struct session *session, const struct line *line);

/* The journal, in memory that is the caller's. */
uint8_t *journal_of(struct session *session, size_t *len);

void put_hex(FILE *to, const uint8_t *bytes, size_t len);

#endif
