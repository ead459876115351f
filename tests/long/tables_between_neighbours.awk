# An area reaches from the last page of one table of the last level over a whole second one to the first page of a
# third. Its neighbours have the pages before and behind it: an UNMAP of it gives the second table back alone, and each
# neighbour takes its own along.
#
#     awk -v part=script -f ../steps.awk -f tables_between_neighbours.awk      # the script
#     awk -v part=expected -f ../steps.awk -f tables_between_neighbours.awk    # its replies

# struct iommu_ioas_map: size, flags, address space, reserved, user address, length, iova. All is written back.
function map(first, count,    bytes) {
    bytes = little(40, 4) little(7, 4) little(1, 4) little(0, 4) little(4096 * 16, 8) little(4096 * count, 8)
    bytes = bytes little(4096 * first, 8)
    step("ioctl 1 3b85 " bytes, "0 " bytes)
}

# struct iommu_ioas_unmap: size, address space, iova, length. It waits until the device has flushed.
function unmap(first, count,    bytes) {
    bytes = little(24, 4) little(1, 4) little(4096 * first, 8) little(4096 * count, 8)
    step("ioctl 1 3b86 " bytes, "11 Pending")
    step("flush 1", "ok")
    step("ioctl 1 3b86 " bytes, "0 " bytes)
}

# One more page of the user, in this frame.
function page(frame) {
    step(sprintf("umap 1 %x", 4096 * (16 + pages++)), "ok frame " frame)
}

# Whether a device reaches the page.
function reach(first, reaches) {
    step(sprintf("dread 1 %x 1", 4096 * first), reaches ? "ok 00" : sprintf("fault 6 source 0018 page %x read", first))
}

BEGIN {
    # The pages 511 to 1024.
    pages = 0
    PAGES = 514
    if (part == "script") {
        print "pool 600\nuser 600\nfile 1\ndevice 0018 39\nbegin"
    }
    step("ioctl 1 3b81 0c0000000000000000000000", "0 0c00000000000000" little(1, 4))
    while (pages < PAGES) {
        page(pages)
    }
    map(510, 1)
    map(511, PAGES)
    map(1025, 1)
    step("bind 1 1", "ok id 2")
    # A root, 514, and below it a table, 515, with those of the last level: 516, 517 and 518.
    step("attach 1 1", "ok id 3")
    step("free", "ok 81")
    unmap(511, PAGES)
    step("free", "ok 82")
    page(517)
    reach(510, 1)
    reach(511, 0)
    reach(512, 0)
    reach(1024, 0)
    reach(1025, 1)
    step("free", "ok 81")
    unmap(510, 1)
    step("free", "ok 82")
    page(516)
    reach(1025, 1)
    # With the last area the table above goes too, and the root stays.
    unmap(1025, 1)
    step("free", "ok 83")
    page(515)
    page(518)
    page(519)
    # The next area needs two tables: 520 and 521.
    map(510, 1)
    step("free", "ok 78")
    reach(510, 1)
    step("detach 1", "ok")
    step("free", "ok 81")
    page(514)
}
