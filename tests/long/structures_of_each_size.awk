# Structures of each size, and those of their bytes that have to be zero. All are commands of file 9, which isn't there:
# so one that is read is answered with Id.
#
#     awk -v part=script -f ../steps.awk -f structures_of_each_size.awk      # the script
#     awk -v part=expected -f ../steps.awk -f structures_of_each_size.awk    # its replies

function ask(number, bytes, reply) {
    step("ioctl 9 " number " " (bytes == "" ? "-" : bytes), reply)
}

# So many bytes that are zero.
function zeros(count,    bytes) {
    for (bytes = ""; count > 0; count--) {
        bytes = bytes "00"
    }
    return bytes
}

# A structure of this size whose other bytes are zero, but for this one in its place.
function with_byte(size, place, byte) {
    return little(size, 4) zeros(place - 4) byte zeros(size - place - 1)
}

# Fewer bytes than the structure has, with its size and with theirs.
function check_cuts(number, known,    count) {
    for (count = 0; count < known; count++) {
        ask(number, substr(little(known, 4) zeros(known), 1, 2 * count), "22 Short")
    }
    for (count = 4; count < known; count++) {
        ask(number, little(count, 4) zeros(count - 4), "22 Short")
    }
}

# This size, where each byte of the tail is looked at, or the first and last few alone, and one byte behind it.
function check_tail(number, known, size,    place) {
    ask(number, little(size, 4) zeros(size - 4), "2 Id")
    ask(number, little(size, 4) zeros(size - 3), "22 Array")
    for (place = known; place < size; place++) {
        if (place < known + 8 || place >= size - 2) {
            ask(number, with_byte(size, place, "01"), "7 Tail")
        }
    }
}

# Each bit of this byte, set alone.
function check_bits(number, known, place,    bit) {
    for (bit = 1; bit < 256; bit *= 2) {
        ask(number, with_byte(known, place, sprintf("%02x", bit)), "95 Unsupported")
    }
}

# All bits of a field of 4 bytes that has to be zero.
function check_field(number, known, offset,    place) {
    for (place = offset; place < offset + 4; place++) {
        check_bits(number, known, place)
    }
}

function check_structure(number, known,    size) {
    check_cuts(number, known)
    for (size = known; size < known + 9; size++) {
        check_tail(number, known, size)
    }
    check_tail(number, known, 4095)
    check_tail(number, known, 4096)
    ask(number, little(4097, 4) zeros(4093), "7 Tail")
}

# Flags that aren't known. FIXED_IOVA, WRITEABLE and READABLE are the bits 0 to 2.
function check_flags(number, known,    bit, place) {
    for (bit = 8; bit < 256; bit *= 2) {
        ask(number, with_byte(known, 4, sprintf("%02x", bit)), "95 Unsupported")
    }
    for (place = 5; place < 8; place++) {
        check_bits(number, known, place)
    }
}

# struct iommu_ioas_allow_iovas that counts so many ranges, with so many bytes of them.
function check_count(count, bytes, reply) {
    ask("3b82", little(24, 4) little(1, 4) little(count, 4) little(0, 12) zeros(bytes), reply)
}

BEGIN {
    if (part == "script") {
        print "pool 1\nuser 1\nfile 1\nbegin"
    }
    ask("3b87", "", "25 Number")
    ask("3b88", with_byte(24, 4, "00"), "25 Number")
    ask("3b8a", with_byte(24, 4, "00"), "25 Number")
    ask("81", with_byte(12, 4, "00"), "25 Number")
    # DESTROY, IOAS_ALLOC, IOAS_ALLOW_IOVAS, IOAS_COPY, IOAS_IOVA_RANGES, IOAS_MAP, IOAS_UNMAP, HWPT_ALLOC.
    check_structure("3b80", 8)
    check_structure("3b81", 12)
    check_structure("3b82", 24)
    check_structure("3b83", 40)
    check_structure("3b84", 32)
    check_structure("3b85", 40)
    check_structure("3b86", 24)
    check_structure("3b89", 24)
    # Flags, and reserved fields.
    check_field("3b81", 12, 4)
    check_field("3b82", 24, 12)
    check_flags("3b83", 40)
    check_field("3b84", 32, 12)
    check_flags("3b85", 40)
    check_field("3b85", 40, 12)
    check_field("3b89", 24, 4)
    check_field("3b89", 24, 20)
    # The tail of a HWPT_ALLOC comes before its flags, and these before a byte too many.
    ask("3b89", little(25, 4) little(1, 4) zeros(16) "01", "7 Tail")
    ask("3b89", little(24, 4) little(1, 4) zeros(17), "95 Unsupported")
    # A count that its entries don't have.
    check_count(0, 1, "22 Array")
    check_count(1, 0, "22 Array")
    check_count(1, 15, "22 Array")
    check_count(1, 16, "2 Id")
    check_count(1, 17, "22 Array")
    check_count(2, 16, "22 Array")
    check_count(2, 32, "2 Id")
    check_count(4294967295, 1, "22 Array")
}
