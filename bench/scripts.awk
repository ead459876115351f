# Writes a script for the program: awk -v kind=.. -v count=.. [-v size=..] [-v setup=1] -f scripts.awk
#
# Each kind is a function below: it writes what goes before (the setup) and then, unless the setup is asked for alone,
# `count` steps that are to be measured.

# A number of so many bytes, the lowest first, in hex.
function little(number, bytes,    text) {
    text = ""
    while (bytes-- > 0) {
        text = text sprintf("%02x", number % 256)
        number = int(number / 256)
    }
    return text
}

function head(frames) {
    print "pool " frames
    print "user 65535"
    print "file 1"
    print "device 0018 39"
    print "begin"
}

function alloc(file) {
    print "ioctl " file " 3b81 0c0000000000000000000000"
}

function allocs(wanted,    i) {
    for (i = 0; i < wanted; i++) alloc(1)
}

# Pages of the user are numbered from 1; the first is at 0x1000.
function give(page) {
    printf "umap 1 %x\n", page * 4096
}

function give_all(wanted,    page) {
    for (page = 1; page <= wanted; page++) give(page)
}

# IOAS_MAP with all flags into address space 1: so many pages of the user from the first on, at page `at`.
function map(pages, at) {
    print "ioctl 1 3b85 280000000700000001000000000000000010000000000000" little(pages * 4096, 8) little(at * 4096, 8)
}

function maps_rising(wanted,    i) {
    for (i = 0; i < wanted; i++) map(1, i)
}

function maps_falling(wanted,    i) {
    for (i = wanted - 1; i >= 0; i--) map(1, i)
}

function bind_and_attach() {
    print "bind 1 1"
    print "attach 1 1"
}

# The setup ends here.
function measured() {
    if (setup) exit
}

# A close of a file that isn't there.
function refused_close(    i) {
    head(8)
    measured()
    for (i = 0; i < count; i++) print "close 9"
}

# An IOAS_ALLOC by a file that isn't there.
function refused_alloc(    i) {
    head(8)
    measured()
    for (i = 0; i < count; i++) alloc(9)
}

# Pages are given to the user and mapped, and three tables lead to them; then in turn a umap of a page that the user
# has, which is refused, and a read of 64 bytes of it, which passes. One page after the other.
function umap_and_dread(    i, page) {
    head(size + 3)
    alloc(1)
    give_all(size)
    map(size, 0)
    bind_and_attach()
    measured()
    for (i = 0; i < count / 2; i++) {
        page = i % size
        give(page + 1)
        printf "dread 1 %x 64\n", page * 4096
    }
}

# A umap for which there is no free frame.
function umap_in_full_pool(    i) {
    head(size)
    give_all(size)
    measured()
    for (i = 0; i < count; i++) give(size + 1)
}

# All frames of a pool are given out.
function fill_pool() {
    head(count)
    measured()
    give_all(count)
}

# MAPs of a page each, side by side, by rising addresses.
function rising() {
    head(8)
    alloc(1)
    measured()
    maps_rising(count)
}

# The same by falling addresses.
function falling() {
    head(8)
    alloc(1)
    measured()
    maps_falling(count)
}

# The same by rising addresses where a page table translates them. It takes a frame for each 512 of them, and two more.
function attached() {
    head(256)
    alloc(1)
    give(1)
    bind_and_attach()
    measured()
    maps_rising(count)
}

# One attach, with so many areas.
function attach() {
    head(256)
    alloc(1)
    give(1)
    maps_rising(size)
    print "bind 1 1"
    measured()
    print "attach 1 1"
}

function unmap_everything() {
    print "ioctl 1 3b86 18000000010000000000000000000000ffffffffffffffff"
}

# One UNMAP of so many areas.
function unmap_all() {
    head(8)
    alloc(1)
    maps_rising(size)
    measured()
    unmap_everything()
}

# UNMAPs of one area each, where so many are leaving and owed by nobody. Of the areas of a page each every `step`th
# goes, round and round until all have gone but for the last ones.
function unmap_leaving(step,    i, at) {
    head(256)
    alloc(1)
    give(1)
    maps_rising(size)
    bind_and_attach()
    unmap_everything()
    print "flush 1"
    measured()
    for (i = 0; i < count; i++) {
        at = (i * step) % size
        print "ioctl 1 3b86 1800000001000000" little(at * 4096, 8) little(4096, 8)
    }
}

# A device is attached and detached in turn, in a file that has so many address spaces besides.
function attach_beside_objects(    i) {
    head(8)
    alloc(1)
    print "bind 1 1"
    allocs(size)
    measured()
    for (i = 0; i < count / 2; i++) {
        print "attach 1 1"
        print "detach 1"
    }
}

# Objects of a file.
function objects() {
    head(8)
    measured()
    allocs(count)
}

# MAPs of a file that has so many objects.
function maps_beside_objects() {
    head(8)
    allocs(size)
    measured()
    maps_rising(count)
}

BEGIN {
    if (kind == "refused_close") refused_close()
    else if (kind == "refused_alloc") refused_alloc()
    else if (kind == "umap_and_dread") umap_and_dread()
    else if (kind == "umap_in_full_pool") umap_in_full_pool()
    else if (kind == "fill_pool") fill_pool()
    else if (kind == "rising") rising()
    else if (kind == "falling") falling()
    else if (kind == "attached") attached()
    else if (kind == "attach") attach()
    else if (kind == "unmap_all") unmap_all()
    else if (kind == "unmap_leaving") unmap_leaving(1)
    else if (kind == "unmap_leaving_spread") unmap_leaving(7919)
    else if (kind == "attach_beside_objects") attach_beside_objects()
    else if (kind == "objects") objects()
    else if (kind == "maps_beside_objects") maps_beside_objects()
    else {
        print "unknown kind " kind > "/dev/stderr"
        exit 1
    }
}
