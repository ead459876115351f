/* Calls that several of these tests make. Those of a caller are made again while they can't be served. */
#ifndef CALLS_H
#define CALLS_H

#include "defnulk_iommufd.h"

enum { PAGE = 4096 };

/* An ioctl of file 1. What is answered is written over the structure. */
int32_t ioctl_of(struct defnulk_handle *caller, uint32_t number, void *structure, size_t size);

/* IOAS_ALLOC. The address space is the first one, with id 1: the calls below are of this one. */
int32_t make_space(struct defnulk_handle *caller);

/* IOAS_MAP of one page of the user, for reads and writes. */
int32_t map_page(struct defnulk_handle *caller, uint64_t va, uint64_t iova);

/* IOAS_COPY of one page to another place. */
int32_t copy_page(struct defnulk_handle *caller, uint64_t to, uint64_t from);

/* IOAS_UNMAP. How many bytes went is put over the length. */
int32_t unmap_bytes(struct defnulk_handle *caller, uint64_t iova, uint64_t *length);

/* A flush by a port, made again while it can't be served. */
int32_t flush_port(struct defnulk_handle *port);

/* Writes the journal on standard output, as a line `journal <hex>`. */
int32_t put_journal(struct defnulk_handle *caller);

#endif
