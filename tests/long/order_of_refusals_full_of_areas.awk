# The orders of refusals of MAP and COPY into an address space that is full of areas.
#
#     awk -v part=script -f ../steps.awk -f order_of_refusals_full_of_areas.awk      # the script
#     awk -v part=expected -f ../steps.awk -f order_of_refusals_full_of_areas.awk    # its replies

# struct iommu_ioas_map: size, flags, address space, reserved, user's address, length, address. All of it is written
# back.
function map(flags, ioas, va, iova, reply,    bytes) {
    bytes = little(40, 4) little(flags, 4) little(ioas, 4) little(0, 4) little(va, 8) little(PAGE, 8) little(iova, 8)
    step("ioctl 1 3b85 " bytes, reply == "" ? "0 " bytes : reply)
}

# struct iommu_ioas_copy: size, flags, target, source, length, the target's address, the source's.
function copy(flags, to, reply,    bytes) {
    bytes = little(40, 4) little(flags, 4) little(1, 4) little(4, 4) little(PAGE, 8) little(to, 8) little(20480, 8)
    step("ioctl 1 3b83 " bytes, reply)
}

BEGIN {
    PAGE = 4096
    AREAS = 65535
    # Flags: WRITEABLE and READABLE, and with them FIXED_IOVA. At FREE, 0x10000000, there is no area.
    CHOSEN = 6
    ALL = 7
    FREE = 268435456
    if (part == "script") {
        print "pool 256\nuser 65535\nfile 1\ndevice 0018 39\nbegin"
    }
    step("ioctl 1 3b81 0c0000000000000000000000", "0 0c0000000000000001000000")
    step("umap 1 10000", "ok frame 0")
    step("bind 1 1", "ok id 2")
    step("attach 1 1", "ok id 3")
    for (page = 0; page < AREAS; page++) {
        map(ALL, 1, 65536, page * PAGE)
    }
    # Another address space, with an area of a page that the user doesn't have, at 0x5000.
    step("ioctl 1 3b81 0c0000000000000000000000", "0 0c0000000000000004000000")
    map(ALL, 4, 131072, 20480)
    # To the second Absent and Account apply too.
    map(ALL, 1, 131072, PAGE, "17 Overlap")
    map(ALL, 1, 131072, FREE, "28 Full")
    copy(ALL, PAGE, "17 Overlap")
    copy(ALL, FREE, "28 Full")
    copy(CHOSEN, 0, "28 Full")
}
