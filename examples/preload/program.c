/* A program that was written for the kernel's /dev/iommu: it knows linux/iommufd.h, and nothing of this project. It
 * makes an address space, maps its own memory there, and takes it away again. Under the shim it prints what stands in
 * program.expected.
 */
#include <errno.h>
#include <fcntl.h>
#include <stdint.h>
#include <stdio.h>
#include <stdlib.h>
#include <string.h>
#include <sys/ioctl.h>
#include <sys/mman.h>
#include <unistd.h>

#include "words.h"

enum { PAGE = 4096, PAGES = 3 };

/* Makes a call of ioctl, and says what it answered. */
static int call(const char *what, int descriptor, unsigned long number, void *structure) {
    int result = ioctl(descriptor, number, structure);
    printf("%s: %s\n", what, result == 0 ? "done" : strerror(errno));
    return result;
}

/* The ranges that can be used, in an array of so many places. */
static void print_ranges(int descriptor, uint32_t ioas, uint32_t places) {
    struct iommu_iova_range ranges[4] = { { 0, 0 } };
    struct iommu_ioas_iova_ranges asked = {
        .size = sizeof asked, .ioas_id = ioas, .num_iovas = places, .allowed_iovas = (uintptr_t)ranges
    };
    call("ranges", descriptor, IOMMU_IOAS_IOVA_RANGES, &asked);
    printf("  %u of them, by %llu\n", (unsigned)asked.num_iovas, (unsigned long long)asked.out_iova_alignment);
    for (uint32_t i = 0; i < asked.num_iovas && i < places; i++)
        printf("  0x%llx-0x%llx\n", (unsigned long long)ranges[i].start, (unsigned long long)ranges[i].last);
}

/* Maps pages of the program's own memory, where `flags` says so at this address, and says at which. */
static void map(int descriptor, uint32_t ioas, const void *memory, uint64_t length, uint64_t iova, uint32_t flags) {
    struct iommu_ioas_map map = {
        .size = sizeof map, .flags = flags | IOMMU_IOAS_MAP_READABLE | IOMMU_IOAS_MAP_WRITEABLE, .ioas_id = ioas,
        .user_va = (uintptr_t)memory, .length = length, .iova = iova
    };
    if (call("map", descriptor, IOMMU_IOAS_MAP, &map) == 0)
        printf("  at 0x%llx\n", (unsigned long long)map.iova);
}

static void unmap(int descriptor, uint32_t ioas, uint64_t iova, uint64_t length) {
    struct iommu_ioas_unmap unmap = { .size = sizeof unmap, .ioas_id = ioas, .iova = iova, .length = length };
    if (call("unmap", descriptor, IOMMU_IOAS_UNMAP, &unmap) == 0)
        printf("  %llu bytes\n", (unsigned long long)unmap.length);
}

/* From now on addresses are chosen in these two ranges. */
static void allow(int descriptor, uint32_t ioas) {
    struct iommu_iova_range ranges[] = { { 0x40000, 0x40fff }, { 0x80000, 0x8ffff } };
    struct iommu_ioas_allow_iovas allow = {
        .size = sizeof allow, .ioas_id = ioas, .num_iovas = 2, .allowed_iovas = (uintptr_t)ranges
    };
    call("allow", descriptor, IOMMU_IOAS_ALLOW_IOVAS, &allow);
}

static void destroy(int descriptor, uint32_t id) {
    struct iommu_destroy destroy = { .size = sizeof destroy, .id = id };
    call("destroy", descriptor, IOMMU_DESTROY, &destroy);
}

int main(void) {
    struct iommu_ioas_alloc alloc = { .size = sizeof alloc };
    uint8_t *memory = mmap(NULL, PAGES * PAGE, PROT_READ | PROT_WRITE, MAP_PRIVATE | MAP_ANONYMOUS, -1, 0);
    int descriptor = open("/dev/iommu", O_RDWR | O_CLOEXEC);
    printf("open: %s\n", descriptor >= 0 ? "done" : strerror(errno));
    if (descriptor < 0 || memory == MAP_FAILED || call("alloc", descriptor, IOMMU_IOAS_ALLOC, &alloc) != 0)
        return 1;
    uint32_t ioas = alloc.out_ioas_id;
    print_ranges(descriptor, ioas, 4);
    print_ranges(descriptor, ioas, 0);
    map(descriptor, ioas, memory, PAGES * PAGE, 0x100000, IOMMU_IOAS_MAP_FIXED_IOVA);
    map(descriptor, ioas, memory, PAGE, 0x102000, IOMMU_IOAS_MAP_FIXED_IOVA);
    map(descriptor, ioas, memory + 1, PAGE, 0x200000, IOMMU_IOAS_MAP_FIXED_IOVA);
    allow(descriptor, ioas);
    map(descriptor, ioas, memory, 2 * PAGE, 0, 0);
    map(descriptor, ioas, memory, PAGE, 0, 0);
    unmap(descriptor, ioas, 0x100000, PAGE);
    unmap(descriptor, ioas, 0x100000, PAGES * PAGE);
    unmap(descriptor, ioas, 0, UINT64_MAX);
    destroy(descriptor, ioas);
    destroy(descriptor, ioas);
    printf("close: %s\n", close(descriptor) == 0 ? "done" : strerror(errno));
    destroy(descriptor, ioas);
    return munmap(memory, PAGES * PAGE) != 0;
}
