/* Four threads, each with a caller's handle of one server: each call makes one record, and no two the same place. */
#include <inttypes.h>
#include <pthread.h>
#include <sched.h>
#include <stdio.h>

#include "defnulk_iommufd.h"

enum { THREADS = 4, CALLS = 500 };

struct worker {
    struct defnulk_handle handle;
    uint16_t user;
    uint64_t places[CALLS];
    int32_t status;
};

static struct worker workers[THREADS];
static unsigned char seen[THREADS * CALLS];

/* A user gets a page and gives it up again, in turn. A call that isn't served now is made again. */
static void *work(void *at) {
    struct worker *worker = at;
    for (uint64_t i = 0; i < CALLS && worker->status == 0;) {
        struct defnulk_outcome out;
        int32_t status = i % 2 == 0 ? defnulk_user_map(&worker->handle, worker->user, 0x10000, &out)
                                    : defnulk_user_unmap(&worker->handle, worker->user, 0x10000, &out);
        if (status == 0)
            worker->places[i++] = out.at;
        else if (status == DEFNULK_NOT_NOW)
            sched_yield();
        else
            worker->status = status;
    }
    return NULL;
}

int main(void) {
    const uint64_t users[THREADS] = { 1, 1, 1, 1 };
    const uint16_t files[] = { 1 };
    const struct defnulk_config config = {
        .users = users, .user_count = THREADS, .files = files, .file_count = 1,
        .pool = 8, .passes = THREADS, .lanes = THREADS, .cache = 1
    };
    struct defnulk_outcome out;
    pthread_t threads[THREADS];
    if (defnulk_open(&config, &workers[0].handle) != 0)
        return 1;
    for (int t = 1; t < THREADS; t++)
        if (defnulk_share(&workers[0].handle, &workers[t].handle) != 0)
            return 2;
    for (int t = 0; t < THREADS; t++) {
        workers[t].user = (uint16_t)(t + 1);
        if (pthread_create(&threads[t], NULL, work, &workers[t]) != 0)
            return 3;
    }
    for (int t = 0; t < THREADS; t++)
        pthread_join(threads[t], NULL);
    for (int t = 0; t < THREADS; t++) {
        if (workers[t].status != 0)
            return 4;
        for (int i = 0; i < CALLS; i++) {
            uint64_t place = workers[t].places[i];
            if (place >= sizeof seen || seen[place]++)
                return 5;
        }
    }
    if (defnulk_free_frames(&workers[0].handle, &out) != 0 || out.value != 8)
        return 6;
    for (int t = 0; t < THREADS; t++)
        if (defnulk_close(&workers[t].handle) != 0)
            return 7;
    printf("%zu records, each at a place of its own\n", sizeof seen);
    return 0;
}
