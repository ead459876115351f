# All frames of the largest pool but one are taken for tables, and come back with the page table: a root, eight tables
# below it, and the others of the last level, each for one page at a multiple of 2 MiB.
#
#     awk -v part=script -f ../steps.awk -f whole_pool_of_tables.awk      # the script
#     awk -v part=expected -f ../steps.awk -f whole_pool_of_tables.awk    # its replies

# The user's page is mapped as the so manieth, from 0, and answered so, or as a MAP is that passes.
function map(count, answer,    bytes) {
    # struct iommu_ioas_map: size, flags, address space, reserved, user address, length, iova.
    bytes = little(40, 4) little(7, 4) little(1, 4) little(0, 4) little(65536, 8) little(4096, 8)
    bytes = bytes little(2097152 * count, 8)
    step("ioctl 1 3b85 " bytes, answer == "" ? "0 " bytes : answer)
}

BEGIN {
    # One frame is the page's, one the root's, and eight are the tables' below it, each of which leads to 512 others.
    LAST = 4096 - 1 - 1 - 8
    if (part == "script") {
        print "pool 4096\nuser 4096\nfile 1\ndevice 0018 39\nbegin"
    }
    step("ioctl 1 3b81 0c0000000000000000000000", "0 0c00000000000000" little(1, 4))
    step("umap 1 10000", "ok frame 0")
    step("uwrite 1 10fff ab", "ok")
    step("bind 1 1", "ok id 2")
    step("attach 1 1", "ok id 3")
    step("free", "ok 4094")
    for (count = 0; count < LAST; count++) {
        map(count)
    }
    step("free", "ok 0")
    map(LAST, "12 Frames")
    step("held 1", "ok " LAST)
    step("dread 1 fff 1", "ok ab")
    # Addresses in hex: a multiple of 2 MiB, 200000, ends in five zeros.
    step(sprintf("dread 1 %x00fff 1", 2 * (LAST - 1)), "ok ab")
    step(sprintf("dread 1 %x00000 1", 2 * LAST), sprintf("fault 6 source 0018 page %x read", 512 * LAST))
    step("detach 1", "ok")
    step("free", "ok 4095")
    step("held 1", "ok 0")
}
