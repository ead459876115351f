# Lists of as many allowed ranges as a script may well have.
#
#     awk -v part=script -f ../steps.awk -f many_ranges.awk      # the script
#     awk -v part=expected -f ../steps.awk -f many_ranges.awk    # its replies

# struct iommu_ioas_allow_iovas of every other page from 0 on, the last first, and behind them of this page: size,
# address space, number of ranges, reserved, address. This much is written back, where the list isn't refused.
function allow(page, refusal,    bytes, ranges, place) {
    bytes = little(24, 4) little(1, 4) little(COUNT + 1, 4) little(0, 4) little(0, 8)
    for (place = COUNT - 1; place >= 0; place--) {
        ranges = ranges little(2 * place * PAGE, 8) little(2 * place * PAGE + PAGE - 1, 8)
    }
    ranges = ranges little(page, 8) little(page + PAGE - 1, 8)
    step("ioctl 1 3b82 " bytes ranges, refusal == "" ? "0 " bytes : refusal)
}

# struct iommu_ioas_map without a fixed address: size, flags, address space, reserved, user's address, length, address.
function map_bytes(size, iova) {
    return little(40, 4) little(6, 4) little(1, 4) little(0, 4) little(65536, 8) little(size, 8) little(iova, 8)
}

# A MAP, and the address that the server chooses.
function map(size, iova) {
    step("ioctl 1 3b85 " map_bytes(size, 0), "0 " map_bytes(size, iova))
}

BEGIN {
    PAGE = 4096
    COUNT = 4000
    if (part == "script") {
        print "pool 1\nuser 1\nfile 1\nbegin"
    }
    step("ioctl 1 3b81 0c0000000000000000000000", "0 0c0000000000000001000000")
    # The page between the last two is allowed too: from the last but one on there are three.
    allow((2 * COUNT - 3) * PAGE)
    map(PAGE, 0)
    map(3 * PAGE, (2 * COUNT - 4) * PAGE)
    map(PAGE, 2 * PAGE)
    step("ioctl 1 3b85 " map_bytes(2 * PAGE, 0), "28 Full")
    # The page 0 stands in the list twice: it's refused, and the former list stays.
    allow(0, "22 List")
    map(PAGE, 4 * PAGE)
}
