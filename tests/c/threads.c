/* Callers in threads of their own carry scripts out at one server, and answer each step by a line (script.h):
 *
 *     threads first.script thread.script.. last.script > told
 *
 * The first script has the head, and is carried out before the threads begin; the last one is once all have ended, by
 * the same caller. Each other one is of a thread, with a handle of its own and the port of the device of its number.
 * The lines stand script by script, and behind them is the journal's. threads.py writes such scripts and checks what
 * was told, and `tests/c/run` builds this.
 */
#include <pthread.h>
#include <sched.h>
#include <stdlib.h>

#include "script.h"

enum { THREADS = 4, PARTS = THREADS + 2, LANES = 2 };

/* A script, who carries it out, and the lines of its steps. */
struct part {
    struct script script;
    struct session *session;
    char *told;
    size_t len;
};

static struct part parts[PARTS];
static struct session whole, of_thread[THREADS];

/* Carries a part out. A step that can't be served now is made again, and other threads go first. */
static void *carry_part_out(void *at) {
    struct part *part = at;
    struct session *session = part->session;
    FILE *to = open_memstream(&part->told, &part->len);
    if (to == NULL)
        fail("no memory");
    for (size_t i = 0; i < part->script.count; i++) {
        const struct line *line = &part->script.lines[i];
        for (carry_out(session, line); session->status == DEFNULK_NOT_NOW; carry_on(session, line))
            sched_yield();
        tell(to, session, line);
    }
    fclose(to);
    return NULL;
}

/* Moves a handle. The old place is closed then. */
static void hand_over(struct defnulk_handle *to, struct defnulk_handle *from) {
    static const struct defnulk_handle closed = DEFNULK_CLOSED;
    *to = *from;
    *from = closed;
}

/* Gives each thread a handle and its port. */
static void open_threads(void) {
    for (int i = 0; i < THREADS; i++) {
        of_thread[i].head = whole.head;
        if (defnulk_share(&whole.caller, &of_thread[i].caller) != 0)
            fail("no handle for a thread");
        hand_over(&of_thread[i].ports[i + 1], &whole.ports[i + 1]);
    }
}

static void close_threads(void) {
    for (int i = 0; i < THREADS; i++) {
        hand_over(&whole.ports[i + 1], &of_thread[i].ports[i + 1]);
        if (defnulk_close(&of_thread[i].caller) != 0)
            fail("a thread's handle is not closed");
    }
}

static void run_threads(void) {
    pthread_t running[THREADS];
    for (int i = 0; i < THREADS; i++)
        if (pthread_create(&running[i], NULL, carry_part_out, &parts[i + 1]) != 0)
            fail("no thread");
    for (int i = 0; i < THREADS; i++)
        pthread_join(running[i], NULL);
}

static void read_parts(char **paths) {
    for (int i = 0; i < PARTS; i++) {
        if (freopen(paths[i], "r", stdin) == NULL)
            fail("a script is not there");
        read_script(&parts[i].script);
        parts[i].session = i == 0 || i == PARTS - 1 ? &whole : &of_thread[i - 1];
    }
}

static void open_whole(struct head *head) {
    if (head->ports != THREADS)
        fail("not as many devices as threads");
    head->config.passes = 1 + 2 * THREADS;
    head->config.lanes = LANES;
    open_session(&whole, head);
}

static void tell_journal(void) {
    size_t len;
    uint8_t *journal = journal_of(&whole, &len);
    printf("journal ");
    put_hex(stdout, journal, len);
    printf("\n");
    free(journal);
}

int main(int argc, char **argv) {
    if (argc != 1 + PARTS)
        fail("other words are wanted");
    read_parts(argv + 1);
    open_whole(&parts[0].script.head);
    carry_part_out(&parts[0]);
    open_threads();
    run_threads();
    close_threads();
    carry_part_out(&parts[PARTS - 1]);
    for (int i = 0; i < PARTS; i++)
        fwrite(parts[i].told, 1, parts[i].len, stdout);
    tell_journal();
    close_session(&whole);
    return 0;
}
