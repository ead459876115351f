# As many areas as an address space may have come in one order and go in another, one by one; and others come from the
# highest to the lowest, and go at once. Each is a page, with a free one behind it.
#
#     awk -v part=script -f ../steps.awk -f areas_in_any_order.awk      # the script
#     awk -v part=expected -f ../steps.awk -f areas_in_any_order.awk    # its replies

# The address of the area at this place of an order, which is a factor for the places that has no divisor in common with
# their count.
function address(place, order) {
    return 8192 * ((place * order) % AREAS)
}

# An address in eight bytes, of which the last four are zero.
function low(iova) {
    return little(iova, 4) "00000000"
}

# struct iommu_ioas_map: size, flags, address space, reserved, user's address, length, address. All of it is written
# back.
function map(iova, size, reply,    bytes) {
    bytes = MAP size low(iova)
    step("ioctl 1 3b85 " bytes, reply == "" ? "0 " bytes : reply)
}

# struct iommu_ioas_unmap: size, address space, address, length. All of it is written back.
function unmap(iova, reply,    bytes) {
    bytes = UNMAP low(iova) PAGE
    step("ioctl 1 3b86 " bytes, reply == "" ? "0 " bytes : reply)
}

# All addresses, of which so many areas go.
function unmap_all(count) {
    step("ioctl 1 3b86 " UNMAP low(0) "ffffffffffffffff", "0 " UNMAP low(0) low(4096 * count))
}

# struct iommu_ioas_copy: size, flags, target, source, length, the target's address, the source's. A page is copied to
# where it is: the area is in the way, where there is one.
function copy(iova, reply) {
    step("ioctl 1 3b83 " COPY PAGE low(iova) low(iova), reply)
}

# Asks at each 25th place of the order, of which so many areas are gone.
function ask(order, gone,    place) {
    for (place = 0; place < AREAS; place += 25) {
        copy(address(place, order), place < gone ? "2 Span" : "17 Overlap")
    }
}

BEGIN {
    AREAS = 65535
    HALF = 32767
    COMING = 28657
    GOING = 40009
    MAP = little(40, 4) little(7, 4) little(1, 4) little(0, 4) low(65536)
    UNMAP = little(24, 4) little(1, 4)
    COPY = little(40, 4) little(7, 4) little(1, 4) little(1, 4)
    PAGE = low(4096)
    if (part == "script") {
        print "pool 1\nuser 0\nfile 1\nbegin"
    }
    step("ioctl 1 3b81 0c0000000000000000000000", "0 0c0000000000000001000000")
    for (place = 0; place < AREAS; place++) {
        map(address(place, COMING), PAGE)
    }
    ask(GOING, 0)
    # Of two reasons the overlap is told.
    map(4096, low(8192), "17 Overlap")
    map(4096, PAGE, "28 Full")
    for (place = 0; place < HALF; place++) {
        unmap(address(place, GOING))
    }
    ask(GOING, HALF)
    for (place = HALF; place < AREAS; place++) {
        unmap(address(place, GOING))
    }
    unmap(0, "2 Span")
    unmap_all(0)
    for (place = 1; place <= HALF; place++) {
        map(address(place, AREAS - 1), PAGE)
    }
    unmap_all(HALF)
    unmap_all(0)
}
