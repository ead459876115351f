/* Carries a script out by the C library (script.h), and answers each step by a line:
 *
 *     session [--journal] < script > replies
 *
 * `tests/c/run` builds it, and compares its lines.
 */
#include <stdlib.h>
#include <string.h>

#include "script.h"

static void tell_journal(struct session *session) {
    size_t len;
    uint8_t *journal = journal_of(session, &len);
    printf("journal ");
    put_hex(stdout, journal, len);
    printf("\n");
    free(journal);
}

int main(int argc, char **argv) {
    static struct script script;
    static struct session session;
    read_script(&script);
    session.counts = script.head.keeps;
    open_session(&session, &script.head);
    for (size_t i = 0; i < script.count; i++) {
        carry_out(&session, &script.lines[i]);
        tell(stdout, &session, &script.lines[i]);
    }
    if (argc > 1 && strcmp(argv[1], "--journal") == 0)
        tell_journal(&session);
    close_session(&session);
    free(script.lines);
    free(script.text);
    return 0;
}
