# Refusals of bind and IOAS_ALLOC in a file that is full of address spaces.
#
#     awk -v part=script -f ../steps.awk -f order_of_refusals_full_of_address_spaces.awk      # the script
#     awk -v part=expected -f ../steps.awk -f order_of_refusals_full_of_address_spaces.awk    # its replies

BEGIN {
    OBJECTS = 65535
    if (part == "script") {
        print "pool 256\nuser 65535\nfile 1\ndevice 0018 39\nbegin"
    }
    for (id = 1; id <= OBJECTS; id++) {
        # Of the id the least byte is the first.
        bytes = sprintf("%02x%02x0000", id % 256, int(id / 256))
        step("ioctl 1 3b81 0c0000000000000000000000", "0 0c00000000000000" bytes)
    }
    step("bind 1 1", "28 Full")
    step("ioctl 1 3b81 0c0000000000000000000000", "28 Full")
}
