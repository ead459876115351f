# A page is mapped and copied a thousand times, each copy from the one before it; then all areas go, in an odd order,
# each with a flush. The page stays pinned once, until the last area is gone, and each table of the last level goes with
# the last area below it.
#
#     awk -v part=script -f ../steps.awk -f chain_of_copies.awk      # the script
#     awk -v part=expected -f ../steps.awk -f chain_of_copies.awk    # its replies

# struct iommu_ioas_copy: size, flags, target, source, length, the target's address, the source's. All of it is written
# back.
function copy(from, to,    bytes) {
    bytes = little(40, 4) little(7, 4) little(1, 4) little(1, 4) little(PAGE, 8) little(to, 8) little(from, 8)
    step("ioctl 1 3b83 " bytes, "0 " bytes)
}

# struct iommu_ioas_unmap: size, address space, address, length.
function unmap(iova, reply,    bytes) {
    bytes = little(24, 4) little(1, 4) little(iova, 8) little(PAGE, 8)
    step("ioctl 1 3b86 " bytes, reply == "" ? "0 " bytes : reply)
}

function counts(held, free) {
    step("held 1", "ok " held)
    step("free", "ok " free)
}

# How many frames are free, where so many areas are left below each of the two tables of the last level: those of the
# pool but the page's, the root's, one for each of these two that has an area, and one for the table above them.
function free_frames() {
    return 8 - 1 - 1 - (left[0] > 0) - (left[1] > 0) - (left[0] + left[1] > 0)
}

BEGIN {
    PAGE = 4096
    AREAS = 1001
    if (part == "script") {
        print "pool 8\nuser 4\nfile 1\ndevice 0018 39\nbegin"
    }
    step("ioctl 1 3b81 0c0000000000000000000000", "0 0c0000000000000001000000")
    step("umap 1 10000", "ok frame 0")
    mapped = little(40, 4) little(7, 4) little(1, 4) little(0, 4) little(65536, 8) little(PAGE, 8) little(PAGE, 8)
    step("ioctl 1 3b85 " mapped, "0 " mapped)
    step("bind 1 1", "ok id 2")
    # The root, a table of level 2 and one of level 1 take three frames.
    step("attach 1 1", "ok id 3")
    counts(1, 4)
    for (page = 1; page < AREAS; page++) {
        copy(page * PAGE, (page + 1) * PAGE)
        # From page 512 on there is one more table of level 1.
        counts(1, page + 1 < 512 ? 4 : 3)
    }
    left[0] = 511
    left[1] = AREAS - 511
    for (turn = 0; turn < AREAS; turn++) {
        page = AREAS - (turn * 3) % AREAS
        unmap(page * PAGE, "11 Pending")
        step("flush 1", "ok")
        counts(1, free_frames())
        unmap(page * PAGE)
        left[page < 512 ? 0 : 1]--
    }
    # The root stays with its page table, and the user has its page still.
    counts(0, 6)
}
