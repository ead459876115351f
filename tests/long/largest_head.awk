# As many users, files and devices as a head may have, each device with a source id of its own.
#
#     awk -v part=script -f ../steps.awk -f largest_head.awk      # the script
#     awk -v part=expected -f ../steps.awk -f largest_head.awk    # its replies

function head(    count) {
    print "pool 4096"
    for (count = 0; count < USERS; count++) {
        print "user 1"
    }
    for (count = 0; count < FILES; count++) {
        print "file " USERS
    }
    for (count = 0; count < DEVICES; count++) {
        printf "device %04x %d\n", count, count < NARROW ? 39 : 48
    }
    print "begin"
}

# A device is attached, and shows its source id, its width, and that it hasn't the interrupt range of x86. Its id is the
# next one, and the first device of either width makes a page table.
function attach(device,    fault) {
    fault = sprintf("source %04x page", device - 1)
    step("bind " FILES " " device, "ok id " ++ids)
    if (device == 1 || device == NARROW + 1) {
        table = ++ids
    }
    step("attach " device " 1", "ok id " table)
    step("dread " device " 8000000000 1", "fault " (device > NARROW ? 6 : 4) " " fault " 8000000 read")
    step("dread " device " fee00000 1", "fault 6 " fault " fee00 read")
}

BEGIN {
    USERS = 255
    FILES = 1024
    DEVICES = 256
    # The devices up to this one translate 39 bits, the others 48.
    NARROW = 100
    if (part == "script") {
        head()
    }
    step("held " USERS, "ok 0")
    step("held " USERS + 1, "2 Id")
    step("ioctl " FILES " 3b81 0c0000000000000000000000", "0 0c00000000000000" little(1, 4))
    ids = 1
    for (device = 1; device <= DEVICES; device++) {
        attach(device)
    }
    step("bind " FILES " " DEVICES + 1, "2 Id")
    # struct iommu_ioas_iova_ranges: size, address space, number of ranges, reserved, address, alignment. Behind it
    # stands the one range below 2^39: no device has a reserved span.
    told = little(32, 4) little(1, 4) little(1, 4) little(0, 4) little(0, 8)
    step("ioctl " FILES " 3b84 " told little(0, 8), "0 " told little(4096, 8) little(0, 8) little(549755813887, 8))
    step("close " FILES - 1, "ok")
    step("close " FILES + 1, "2 Id")
}
