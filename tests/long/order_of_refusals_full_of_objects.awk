# The orders of refusals of bind, attach, HWPT_ALLOC and access in a file that is full of objects, the first the device;
# and the room that an object makes when it goes.
#
#     awk -v part=script -f ../steps.awk -f order_of_refusals_full_of_objects.awk      # the script
#     awk -v part=expected -f ../steps.awk -f order_of_refusals_full_of_objects.awk    # its replies

# struct iommu_ioas_map: size, flags, address space, reserved, user's address, length, address. All of it is written
# back.
function map(ioas, iova,    bytes) {
    bytes = little(40, 4) little(7, 4) little(ioas, 4) little(0, 4) little(65536, 8) little(PAGE, 8) little(iova, 8)
    step("ioctl 1 3b85 " bytes, "0 " bytes)
}

# struct iommu_hwpt_alloc: size, flags, the device's object, address space, id, reserved.
function table(device, ioas, reply) {
    step("ioctl 1 3b89 " little(24, 4) little(0, 4) little(device, 4) little(ioas, 4) little(0, 8), reply)
}

BEGIN {
    PAGE = 4096
    OBJECTS = 65535
    # Where addresses of 39 bits end.
    END_OF_WIDTH = 549755813888
    if (part == "script") {
        print "pool 256\nuser 65535\nfile 1\ndevice 0018 39\nbegin"
    }
    step("bind 1 1", "ok id 1")
    for (id = 2; id <= OBJECTS; id++) {
        step("ioctl 1 3b81 0c0000000000000000000000", "0 0c00000000000000" little(id, 4))
    }
    map(2, PAGE)
    map(3, END_OF_WIDTH)
    # struct iommu_ioas_allow_iovas: size, address space, number of ranges, reserved, address. All this is written back.
    # Behind it stands a range, its first address and its last: the last page that the device translates, and a byte.
    allowed = little(24, 4) little(4, 4) little(1, 4) little(0, 4) little(0, 8)
    step("ioctl 1 3b82 " allowed little(END_OF_WIDTH - PAGE, 8) little(END_OF_WIDTH, 8), "0 " allowed)
    # To all Full applies too, and by the areas of address spaces 2 and 3 Absent: the user lacks their page.
    step("bind 1 9", "2 Id")
    step("bind 1 1", "16 Bound")
    step("attach 1 65536", "2 Id")
    step("attach 1 3", "98 Narrow")
    step("attach 1 4", "98 Narrow")
    step("attach 1 2", "28 Full")
    table(2, 3, "2 Id")
    table(1, 1, "2 Id")
    table(1, 3, "98 Narrow")
    table(1, 4, "98 Narrow")
    table(1, 2, "28 Full")
    step("access 1", "28 Full")
    # An object less makes room for one, of its id.
    seventh = little(8, 4) little(7, 4)
    step("ioctl 1 3b80 " seventh, "0 " seventh)
    step("ioctl 1 3b81 0c0000000000000000000000", "0 0c00000000000000" little(7, 4))
    step("ioctl 1 3b81 0c0000000000000000000000", "28 Full")
    last = little(8, 4) little(OBJECTS, 4)
    step("ioctl 1 3b80 " last, "0 " last)
}
