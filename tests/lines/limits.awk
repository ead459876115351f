# Heads at their limits, and just above them.
#
#     awk -f limits.awk    # the cases

# The text so many times.
function times(count, text,    all) {
    for (all = ""; count > 0; count--) {
        all = all text
    }
    return all
}

# A case: its lines, and the number of its first bad line, where there is one.
function check(why, lines, bad) {
    print "-- " why
    print lines
    print (bad == "" ? "=>" : "=> 1\nbad line " bad)
}

# A head with these devices. The first of them is in line 4.
function with(devices) {
    return "pool 8\nuser 4\nfile 1\n" devices "begin"
}

function check_devices(fields, count, bad) {
    check(count " devices " fields, with(times(count, "device " fields "\n")), bad)
}

function check_counts_of_devices(fields) {
    check_devices(fields, 0)
    check_devices(fields, 1)
    check_devices(fields, 2)
    check_devices(fields, 256)
    check_devices(fields, 257, 260)
    check_devices(fields, 300, 260)
}

function check_spans(fields, count, bad) {
    check(count " reserved spans behind " fields, with("device " fields times(count, SPAN) "\n"), bad)
}

# The spans of one device don't count for another.
function check_second_device(count, bad,    first, second) {
    first = "device 0018 39" times(16, SPAN) "\n"
    second = "device 0019 48" times(count, SPAN) "\n"
    check("16 reserved spans, and " count " of a second device", with(first second), bad)
}

function check_users_and_files(users, files, bad,    lines) {
    lines = "pool 4096\n" times(users, "user 1\n") times(files, "file 255\n") "begin"
    check(users " users, " files " files", lines, bad)
}

# The longest script: with the line feed it has 2^24 bytes, all of them a comment.
function check_longest(    comment, turn) {
    comment = "#"
    for (turn = 0; turn < 24; turn++) {
        comment = comment comment
    }
    check("a comment of 2^24 bytes", substr(comment, 2), 2)
}

BEGIN {
    SPAN = " 4000-4fff"
    check_counts_of_devices("0018 39")
    check_counts_of_devices("0018 48 x86" SPAN)
    check_spans("0018 39", 16)
    check_spans("0018 39", 17, 4)
    check_spans("0018 39", 300, 4)
    check_spans("0018 39 x86", 16)
    check_spans("0018 39 x86", 17, 4)
    check_spans("0018 39 x86", 300, 4)
    check_second_device(16)
    check_second_device(17, 5)
    check_users_and_files(255, 1024)
    check_users_and_files(256, 0, 257)
    check_users_and_files(255, 1025, 1281)
    check_longest()
}
