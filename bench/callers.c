/* How many questions and calls are made in a second, by one thread, two and four: by callers, each thread with a handle
   of its own; and beside that with one caller's handle in turn, behind a mutex, as one lock round the whole server would
   have it. A question reads 64 bytes of the user's memory; a call writes them, so that it takes all lanes and makes a
   record. One that can't be served now is made again. Then three who ask beside one who calls, and a call by how many
   lanes there are. `bench/callers [seconds]` builds and runs it. */
#include <pthread.h>
#include <stdio.h>
#include <stdlib.h>
#include <string.h>
#include <time.h>

#include "defnulk_iommufd.h"

enum { CALLERS = 4, PAGE = 4096, LENGTH = 64, OF = 20, ALONE = -1 };

/* The user's first page. */
static const uint64_t va = 0x100000;

/* A thread, with its caller, and the page that it reads and writes. */
struct caller {
    struct defnulk_handle handle, *used;
    uint64_t page, done;
    int32_t status;
    char padding[128]; /* two callers share no line of cache */
};

static struct caller callers[CALLERS];
static pthread_mutex_t turn = PTHREAD_MUTEX_INITIALIZER;
static int stop, calls, is_shared;
static uint16_t lanes = CALLERS;

static double now(void) {
    struct timespec time;
    clock_gettime(CLOCK_MONOTONIC, &time);
    return (double)time.tv_sec + (double)time.tv_nsec / 1e9;
}

/* Whether it is a call: so many of each twenty are, or all of the first caller alone. */
static int is_call(const struct caller *caller) {
    return calls == ALONE ? caller == callers : caller->done % OF < (uint64_t)calls;
}

static int32_t ask_or_call(struct caller *caller, unsigned char *bytes) {
    struct defnulk_outcome out;
    if (is_call(caller))
        return defnulk_user_write(caller->used, 1, caller->page, bytes, LENGTH, &out);
    return defnulk_user_read(caller->used, 1, caller->page, bytes, LENGTH, &out);
}

/* One after another, until it is stopped. */
static void *go_on(void *at) {
    struct caller *caller = at;
    unsigned char bytes[LENGTH] = { 0 };
    while (!__atomic_load_n(&stop, __ATOMIC_RELAXED) && caller->status == 0) {
        if (is_shared)
            pthread_mutex_lock(&turn);
        int32_t status = ask_or_call(caller, bytes);
        if (is_shared)
            pthread_mutex_unlock(&turn);
        if (status == 0)
            caller->done++;
        else if (status != DEFNULK_NOT_NOW)
            caller->status = status;
    }
    return NULL;
}

/* A server with a page and a caller for each thread. */
static int opened(void) {
    const uint64_t users[] = { CALLERS };
    const uint16_t files[] = { 1 };
    const struct defnulk_config config = {
        .users = users, .user_count = 1, .files = files, .file_count = 1, .pool = CALLERS, .passes = 64,
        .lanes = lanes, .cache = 1
    };
    struct defnulk_outcome out;
    memset(callers, 0, sizeof callers);
    if (defnulk_open(&config, &callers[0].handle) != 0)
        return 1;
    for (int t = 0; t < CALLERS; t++) {
        callers[t].page = va + (uint64_t)t * PAGE;
        callers[t].used = &callers[is_shared ? 0 : t].handle;
        if ((t > 0 && defnulk_share(&callers[0].handle, &callers[t].handle) != 0)
            || defnulk_user_map(&callers[0].handle, 1, callers[t].page, &out) != 0)
            return 1;
    }
    return 0;
}

static int closed(void) {
    for (int t = CALLERS; t-- > 0;)
        if (callers[t].status != 0 || defnulk_close(&callers[t].handle) != 0)
            return 1;
    return 0;
}

/* So many threads go on for a while at a new server: how many are served in a second, together; below 0 at a fault. */
static double measure(int threads, double seconds) {
    pthread_t ids[CALLERS];
    uint64_t done = 0;
    if (opened() != 0)
        return -1;
    double start = now();
    stop = 0;
    for (int t = 0; t < threads; t++)
        pthread_create(&ids[t], NULL, go_on, &callers[t]);
    while (now() - start < seconds) {
        const struct timespec pause = { 0, 1000000 };
        nanosleep(&pause, NULL);
    }
    __atomic_store_n(&stop, 1, __ATOMIC_RELAXED);
    for (int t = 0; t < threads; t++) {
        pthread_join(ids[t], NULL);
        done += callers[t].done;
    }
    double rate = (double)done / (now() - start);
    return closed() != 0 ? -1 : rate;
}

/* How many questions three are answered in a second beside one who calls or does nothing, and how many calls it makes. */
static int beside_a_caller(double seconds) {
    calls = ALONE;
    is_shared = 0;
    double all = measure(CALLERS, seconds), made = (double)callers[0].done / seconds;
    calls = 0;
    double alone = measure(CALLERS, seconds);
    if (all < 0 || alone < 0)
        return 1;
    printf("\nThree who ask: %.2f millions a second beside one who asks, too, and %.2f beside one who calls, %.2f.\n",
           alone * 3 / 4 / 1e6, (all - made) / 1e6, made / 1e6);
    return 0;
}

/* Nanoseconds of a call of one thread, by how many lanes there are. */
static int by_lanes(double seconds) {
    static const uint16_t many[] = { 1, 2, 4, 16, 64 };
    calls = OF;
    puts("\n| lanes | a call, ns |\n|---:|---:|");
    for (size_t i = 0; i < sizeof many / sizeof *many; i++) {
        lanes = many[i];
        double rate = measure(1, seconds);
        if (rate < 0)
            return 1;
        printf("| %u | %.0f |\n", (unsigned)lanes, 1e9 / rate);
    }
    return 0;
}

int main(int argc, char **argv) {
    static const struct {
        const char *name;
        int calls, is_shared;
    } rows[] = {
        { "questions, a caller each", 0, 0 },
        { "questions, in turn", 0, 1 },
        { "19 questions to a call, a caller each", 1, 0 },
        { "19 questions to a call, in turn", 1, 1 },
        { "calls, a caller each", OF, 0 },
        { "calls, in turn", OF, 1 },
    };
    double seconds = argc > 1 ? atof(argv[1]) : 1;
    puts("| millions a second | 1 thread | 2 threads | 4 threads |");
    puts("|---|---:|---:|---:|");
    for (size_t i = 0; i < sizeof rows / sizeof *rows; i++) {
        calls = rows[i].calls;
        is_shared = rows[i].is_shared;
        double one = measure(1, seconds), two = measure(2, seconds), four = measure(4, seconds);
        if (one < 0 || two < 0 || four < 0)
            return 1;
        printf("| %s | %.2f | %.2f | %.2f |\n", rows[i].name, one / 1e6, two / 1e6, four / 1e6);
    }
    return beside_a_caller(seconds) != 0 || by_lanes(seconds) != 0;
}
