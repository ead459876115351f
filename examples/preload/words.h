/* What the shim and the program use of the kernel's linux/iommufd.h: that header itself where the machine has it, and
 * else the same numbers and layouts in our words. */
#ifndef DEFNULK_PRELOAD_WORDS_H
#define DEFNULK_PRELOAD_WORDS_H

#if defined(__has_include)
#if __has_include(<linux/iommufd.h>)
#define DEFNULK_HAS_KERNEL_HEADER 1
#endif
#endif

#ifdef DEFNULK_HAS_KERNEL_HEADER
#include <linux/iommufd.h>
#else

#include <stdint.h>
#include <sys/ioctl.h>

#define IOMMU_DESTROY _IO(';', 0x80)
#define IOMMU_IOAS_ALLOC _IO(';', 0x81)
#define IOMMU_IOAS_ALLOW_IOVAS _IO(';', 0x82)
#define IOMMU_IOAS_COPY _IO(';', 0x83)
#define IOMMU_IOAS_IOVA_RANGES _IO(';', 0x84)
#define IOMMU_IOAS_MAP _IO(';', 0x85)
#define IOMMU_IOAS_UNMAP _IO(';', 0x86)
#define IOMMU_HWPT_ALLOC _IO(';', 0x89)

enum { IOMMU_IOAS_MAP_FIXED_IOVA = 1, IOMMU_IOAS_MAP_WRITEABLE = 2, IOMMU_IOAS_MAP_READABLE = 4 };

struct iommu_destroy {
    uint32_t size, id;
};

struct iommu_ioas_alloc {
    uint32_t size, flags, out_ioas_id;
};

struct iommu_iova_range {
    uint64_t start, last;
};

/* `allowed_iovas` is the address of an array of ranges. */
struct iommu_ioas_iova_ranges {
    uint32_t size, ioas_id, num_iovas, __reserved;
    uint64_t allowed_iovas, out_iova_alignment;
};

struct iommu_ioas_allow_iovas {
    uint32_t size, ioas_id, num_iovas, __reserved;
    uint64_t allowed_iovas;
};

struct iommu_ioas_map {
    uint32_t size, flags, ioas_id, __reserved;
    uint64_t user_va, length, iova;
};

struct iommu_ioas_unmap {
    uint32_t size, ioas_id;
    uint64_t iova, length;
};

#endif

#endif
