# Devices whose lines read well. Their address spaces' usable ranges tell their widths, whether they have the interrupt
# range of x86, and their reserved spans; a fault tells their source ids.
#
#     awk -f good_devices.awk    # the cases

# The number of these hexadecimal digits as so many bytes, the lowest first.
function bytes_of(digits, count,    all) {
    while (length(digits) < 2 * count) {
        digits = "0" digits
    }
    for (all = ""; digits != ""; digits = substr(digits, 1, length(digits) - 2)) {
        all = all substr(digits, length(digits) - 1)
    }
    return all
}

# A device with this behind its source id, and the usable ranges, each as its first and last address with a minus
# between them. There is place for 32 of them.
function check(fields, usable,    ranges, count, place, ends, told) {
    print "-- " fields
    print "device 00a8 " fields
    print "begin"
    print "ioctl 1 3b81 0c0000000000000000000000"
    print "bind 1 1"
    print "attach 1 1"
    print "ioctl 1 3b84 20000000" "01000000" "20000000" bytes_of("", 20)
    print "dread 1 0 1"
    count = split(usable, ranges, " ")
    told = ""
    for (place = 1; place <= count; place++) {
        split(ranges[place], ends, "-")
        told = told bytes_of(ends[1], 8) bytes_of(ends[2], 8)
    }
    print "=>"
    print "0 0c0000000000000001000000"
    print "ok id 2"
    print "ok id 3"
    print "0 20000000" "01000000" bytes_of(sprintf("%x", count), 4) bytes_of("", 12) bytes_of("1000", 8) told
    print "fault 6 source 00a8 page 0 read"
}

BEGIN {
    print "pool 8"
    print "user 4"
    print "file 1"
    check("39", "0-7fffffffff")
    check("39 x86", "0-fedfffff fef00000-7fffffffff")
    check("48", "0-ffffffffffff")
    check("48 x86", "0-fedfffff fef00000-ffffffffffff")
    check("48 x86 4000-4fff", "0-3fff 5000-fedfffff fef00000-ffffffffffff")
    check("57", "0-1ffffffffffffff")
    check("57 x86", "0-fedfffff fef00000-1ffffffffffffff")
    check("57 1fffffffffff000-1ffffffffffffff", "0-1ffffffffffefff")
    check("39 4000-4fff", "0-3fff 5000-7fffffffff")
    check("39 x86 4000-4fff", "0-3fff 5000-fedfffff fef00000-7fffffffff")
    check("39 0-fff", "1000-7fffffffff")
    check("39 0-ffffffffffffffff", "")
    check("39 Fee00000-FEEFffff", "0-fedfffff fef00000-7fffffffff")
    check("39 x86 0000000000004000-0000000000004fff", "0-3fff 5000-fedfffff fef00000-7fffffffff")
    check("39 9000-9fff 1000-2fff", "0-fff 3000-8fff a000-7fffffffff")
    check("39 x86 1000-2fff 2000-3fff 1000-2fff", "0-fff 4000-fedfffff fef00000-7fffffffff")
}
