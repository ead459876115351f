# A pin over as many areas as a driver may well have, pins of every other one of them, and the notices of both.
#
#     awk -v part=script -f ../steps.awk -f many_notices.awk      # the script
#     awk -v part=expected -f ../steps.awk -f many_notices.awk    # its replies

# struct iommu_ioas_map: size, flags, address space, reserved, user's address, length, address. All of it is written
# back.
function map(iova,    bytes) {
    bytes = little(40, 4) little(7, 4) little(1, 4) little(0, 4) little(65536, 8) little(PAGE, 8) little(iova, 8)
    step("ioctl 1 3b85 " bytes, "0 " bytes)
}

# struct iommu_ioas_unmap of everything: size, address space, address, length. The length is written back.
function unmap(reply) {
    step("ioctl 1 3b86 " little(24, 4) little(1, 4) little(0, 8) "ffffffffffffffff", reply)
}

# The notices of each page of so many, in this distance.
function notices(distance,    text, place) {
    for (place = 0; place < COUNT; place += distance) {
        text = text " " sprintf("%x-%x", place * PAGE, place * PAGE + PAGE - 1)
    }
    return "ok" text
}

BEGIN {
    PAGE = 4096
    COUNT = 4000
    if (part == "script") {
        print "pool 1\nuser 65535\nfile 1\nbegin"
    }
    step("ioctl 1 3b81 0c0000000000000000000000", "0 0c0000000000000001000000")
    step("umap 1 10000", "ok frame 0")
    for (place = 0; place < COUNT; place++) {
        map(place * PAGE)
    }
    step("access 1", "ok id 2")
    step("access 1", "ok id 3")
    step("aattach 1 2 1", "ok")
    step("aattach 1 3 1", "ok")
    all = sprintf("%x", COUNT * PAGE)
    step("apin 1 2 0 " all " r", "ok")
    for (place = 0; place < COUNT; place += 2) {
        step(sprintf("apin 1 3 %x 1000 w", place * PAGE), "ok")
    }
    # Each area has a memory object of its own.
    step("held 1", "ok " COUNT)
    step("notices 1 2", "ok")
    unmap("11 Pending")
    step("notices 1 2", notices(1))
    step("notices 1 3", notices(2))
    step("aunpin 1 2 0 " all " r", "ok")
    step("notices 1 2", "ok")
    step("held 1", "ok " COUNT / 2)
    unmap("11 Pending")
    for (place = COUNT - 2; place >= 0; place -= 2) {
        step(sprintf("aunpin 1 3 %x 1000 w", place * PAGE), "ok")
    }
    step("notices 1 3", "ok")
    step("held 1", "ok 0")
    unmap("0 " little(24, 4) little(1, 4) little(0, 8) little(COUNT * PAGE, 8))
}
