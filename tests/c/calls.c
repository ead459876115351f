#include "calls.h"

#include <sched.h>
#include <stdio.h>
#include <stdlib.h>
#include <string.h>

enum { BOTH = DEFNULK_FIXED_IOVA | DEFNULK_READABLE | DEFNULK_WRITEABLE, SPACE = 1 };

int32_t ioctl_of(struct defnulk_handle *caller, uint32_t number, void *structure, size_t size) {
    unsigned char room[DEFNULK_LEAST_ROOM];
    size_t written;
    int32_t status;
    while ((status = defnulk_ioctl(caller, 1, number, structure, size, room, sizeof room, &written)) == DEFNULK_NOT_NOW)
        sched_yield();
    if (status == 0)
        memcpy(structure, room, written < size ? written : size);
    return status;
}

int32_t make_space(struct defnulk_handle *caller) {
    struct defnulk_ioas_alloc alloc = { sizeof alloc, 0, 0 };
    int32_t status = ioctl_of(caller, DEFNULK_IOAS_ALLOC, &alloc, sizeof alloc);
    return status == 0 && alloc.out_ioas_id != SPACE ? -EEXIST : status;
}

int32_t map_page(struct defnulk_handle *caller, uint64_t va, uint64_t iova) {
    struct defnulk_ioas_map map = { sizeof map, BOTH, SPACE, 0, va, PAGE, iova };
    return ioctl_of(caller, DEFNULK_IOAS_MAP, &map, sizeof map);
}

int32_t copy_page(struct defnulk_handle *caller, uint64_t to, uint64_t from) {
    struct defnulk_ioas_copy copy = { sizeof copy, BOTH, SPACE, SPACE, PAGE, to, from };
    return ioctl_of(caller, DEFNULK_IOAS_COPY, &copy, sizeof copy);
}

int32_t unmap_bytes(struct defnulk_handle *caller, uint64_t iova, uint64_t *length) {
    struct defnulk_ioas_unmap unmap = { sizeof unmap, SPACE, iova, *length };
    int32_t status = ioctl_of(caller, DEFNULK_IOAS_UNMAP, &unmap, sizeof unmap);
    *length = unmap.length;
    return status;
}

int32_t flush_port(struct defnulk_handle *port) {
    struct defnulk_outcome out;
    int32_t status;
    while ((status = defnulk_port_flush(port, &out)) == DEFNULK_NOT_NOW)
        sched_yield();
    return status;
}

int32_t put_journal(struct defnulk_handle *caller) {
    size_t len = 0, written = 0;
    int32_t status = defnulk_journal(caller, NULL, 0, &len);
    unsigned char *journal = malloc(len + 1);
    if (status == 0 && journal != NULL)
        status = defnulk_journal(caller, journal, len, &written);
    printf("journal ");
    for (size_t i = 0; i < written && status == 0 && journal != NULL; i++)
        printf("%02x", journal[i]);
    printf("\n");
    free(journal);
    return status != 0 || written != len ? -1 : 0;
}
