# The order of an apin's refusals by an access object that holds as many pins as it may; and the room that a pin makes
# when it goes.
#
#     awk -v part=script -f ../steps.awk -f order_of_refusals_full_of_pins.awk      # the script
#     awk -v part=expected -f ../steps.awk -f order_of_refusals_full_of_pins.awk    # its replies

# struct iommu_ioas_map: size, flags, address space, reserved, user's address, length, address. All of it is written
# back.
function map(flags, va, iova,    bytes) {
    bytes = little(40, 4) little(flags, 4) little(1, 4) little(0, 4) little(va, 8) little(PAGE, 8) little(iova, 8)
    step("ioctl 1 3b85 " bytes, "0 " bytes)
}

# struct iommu_ioas_unmap: size, address space, address, length. The length is written back.
function unmap(reply,    bytes) {
    bytes = little(24, 4) little(1, 4) little(PAGE, 8) little(PAGE, 8)
    step("ioctl 1 3b86 " bytes, reply == "" ? "0 " bytes : reply)
}

BEGIN {
    PAGE = 4096
    PINS = 65535
    # Flags: FIXED_IOVA and READABLE, and with them WRITEABLE.
    READ = 5
    ALL = 7
    if (part == "script") {
        print "pool 256\nuser 65535\nfile 1\nbegin"
    }
    step("ioctl 1 3b81 0c0000000000000000000000", "0 0c0000000000000001000000")
    step("umap 1 10000", "ok frame 0")
    map(ALL, 65536, PAGE)
    # The user doesn't have the page of the second area.
    map(READ, 131072, 2 * PAGE)
    step("access 1", "ok id 2")
    step("access 1", "ok id 3")
    step("aattach 1 2 1", "ok")
    step("aattach 1 3 1", "ok")
    for (pin = 1; pin <= PINS; pin++) {
        step("apin 1 2 1000 1000 " (pin % 2 ? "r" : "w"), "ok")
    }
    # To the first Absent applies too.
    step("apin 1 2 2000 1000 w", "1 Rights")
    step("apin 1 2 2000 1000 r", "28 Full")
    step("apin 1 2 1000 1000 r", "28 Full")
    # Each access object has its own, and the page counts once.
    step("apin 1 3 1000 1000 r", "ok")
    step("held 1", "ok 1")
    # A pin less makes room for one.
    step("aunpin 1 2 1000 1000 w", "ok")
    step("apin 1 2 2000 1000 r", "14 Absent")
    step("apin 1 2 1000 1000 w", "ok")
    step("apin 1 2 1000 1000 w", "28 Full")
    unmap("11 Pending")
    for (pin = 1; pin <= PINS; pin++) {
        step("aunpin 1 2 1000 1000 " (pin % 2 ? "r" : "w"), "ok")
    }
    step("aunpin 1 2 1000 1000 r", "22 NotHeld")
    step("aunpin 1 2 1000 1000 w", "22 NotHeld")
    step("notices 1 2", "ok")
    step("notices 1 3", "ok 1000-1fff")
    unmap("11 Pending")
    step("aunpin 1 3 1000 1000 r", "ok")
    step("held 1", "ok 0")
    unmap()
}
