# One script in pools of 1 to 40 frames: pages, maps, copies, page tables of three widths and unmaps. A step that lacks
# a frame is answered so, and nothing else is; the tables that a step needs are counted here by the parts of addresses
# that lead to them.
#
#     awk -f pools_of_each_size.awk    # the cases

# ---- steps

# A step, and what it is answered.
function step(line, reply) {
    print line
    replies = replies reply "\n"
}

# The same, and how many frames are free behind it.
function step_kept(line, reply) {
    step(line, reply)
    step("free", "ok " free)
}

# The number in 8 bytes, the least first, as structures have it.
function eight(number,    bytes, text) {
    for (text = ""; bytes < 8; bytes++) {
        text = text sprintf("%02x", number % 256)
        number = int(number / 256)
    }
    return text
}

# ---- tables

# How many tables a page table of so many levels lacks for pages of an area, each of which it has from then on if they
# come. A table is known by its level and its number in it.
function lacked(levels, first, count, come,    new, page, level, number, total) {
    for (page = first; page < first + count; page++) {
        number = page
        for (level = 1; level < levels; level++) {
            number = int(number / 512)
            if (!((levels, level, number) in tables) && !((level, number) in new)) {
                new[level, number]
                total++
            }
        }
    }
    if (come) {
        for (page in new) {
            tables[levels SUBSEP page]
        }
    }
    return total + 0
}

# How many tables all page tables lack for the pages.
function lacked_by_all(first, count, come,    levels, total) {
    for (levels in attached) {
        total += lacked(levels, first, count, come)
    }
    return total + 0
}

# How many a new page table has, for all areas: its root, and those that it lacks.
function lacked_by_new(levels, come,    area, total) {
    total = 1
    for (area in first_of) {
        total += lacked(levels, first_of[area], count_of[area], 1)
    }
    if (!come) {
        forget(levels)
    }
    return total
}

# Takes the tables of a page table away, below its root, and says how many they were.
function forget(levels,    key, parts, total) {
    for (key in tables) {
        split(key, parts, SUBSEP)
        if (parts[1] == levels) {
            delete tables[key]
            total++
        }
    }
    return total + 0
}

# How many tables no area goes through once one has gone, in all page tables.
function idle_without(area,    levels, other, before, total) {
    delete first_of[area]
    for (levels in attached) {
        before = forget(levels)
        for (other in first_of) {
            before -= lacked(levels, first_of[other], count_of[other], 1)
        }
        total += before
    }
    return total + 0
}

# ---- kinds of steps

function has_page_table(    levels) {
    for (levels in attached) {
        return 1
    }
    return 0
}

# Whether a page that an area needs is missing.
function lacks_page(area,    index_in) {
    for (index_in = 0; index_in < count_of[area]; index_in++) {
        if (!((page_of[area] + index_in) in pages)) {
            return 1
        }
    }
    return 0
}

# The user's page of this number, in the least free frame: no other is given out before the pages are.
function give_page(page,    reply) {
    reply = free == 0 ? "12 Frames" : "ok frame " used
    if (free > 0) {
        pages[page]
        used++
        free--
    }
    step_kept("umap 1 " sprintf("%x", page * 4096), reply)
}

# An area of the name, from this user's page on, at this page of the address space. Its bytes are those of a MAP.
function put_area(area, page, first, count, line, written,    need) {
    page_of[area] = page
    count_of[area] = count
    if (has_page_table() && lacks_page(area)) {
        step_kept(line, "14 Absent")
        return
    }
    need = lacked_by_all(first, count, 0)
    if (need > free) {
        step_kept(line, "12 Frames")
        return
    }
    lacked_by_all(first, count, 1)
    first_of[area] = first
    free -= need
    step_kept(line, "0 " written)
}

function map_area(area, page, first, count,    bytes) {
    bytes = "28000000" "07000000" "01000000" "00000000" eight(page * 4096) eight(count * 4096) eight(first * 4096)
    put_area(area, page, first, count, "ioctl 1 3b85 " bytes, bytes)
}

# The area of the name is copied to this page of the address space.
function copy_area(area, source, first,    bytes) {
    bytes = "28000000" "07000000" "01000000" "01000000" eight(count_of[source] * 4096) eight(first * 4096)
    if (!(source in first_of)) {
        step_kept("ioctl 1 3b83 " bytes eight(0), "2 Span")
        return
    }
    bytes = bytes eight(first_of[source] * 4096)
    put_area(area, page_of[source], first, count_of[source], "ioctl 1 3b83 " bytes, bytes)
}

# The device whose tables have so many levels is attached.
function attach(device, levels,    area, need) {
    if (!has_page_table()) {
        for (area in first_of) {
            if (lacks_page(area)) {
                step_kept("attach " device " 1", "14 Absent")
                return
            }
        }
    }
    need = lacked_by_new(levels, 0)
    if (need > free) {
        step_kept("attach " device " 1", "12 Frames")
        return
    }
    lacked_by_new(levels, 1)
    attached[levels] = device
    free -= need
    step_kept("attach " device " 1", "ok id " ++ids)
}

# The area goes; where devices are attached they flush first.
function unmap_area(area,    bytes, levels) {
    if (!(area in first_of)) {
        return
    }
    bytes = "18000000" "01000000" eight(first_of[area] * 4096) eight(count_of[area] * 4096)
    if (has_page_table()) {
        step_kept("ioctl 1 3b86 " bytes, "11 Pending")
        for (levels = 3; levels <= 5; levels++) {
            if (levels in attached) {
                step("flush " attached[levels], "ok")
            }
        }
    }
    free += idle_without(area)
    step_kept("ioctl 1 3b86 " bytes, "0 " bytes)
}

function detach(levels) {
    if (levels in attached) {
        free += 1 + forget(levels)
        step_kept("detach " attached[levels], "ok")
        delete attached[levels]
    }
}

function take_page(page) {
    if (page in pages) {
        free++
        delete pages[page]
        step_kept("uunmap 1 " sprintf("%x", page * 4096), "ok")
    }
}

# ---- the script

function check_pool(size,    levels, device) {
    free = size
    used = 0
    replies = ""
    print "-- a pool of " size
    print "pool " size "\nuser 64\nfile 1\ndevice 0018 39\ndevice 0100 48\ndevice 0200 57\nbegin"
    step("ioctl 1 3b81 0c0000000000000000000000", "0 0c0000000000000001000000")
    give_page(16)
    give_page(17)
    give_page(18)
    # over the border of two tables of the last level
    map_area("border", 16, 511, 2)
    for (device = 1; device <= 3; device++) {
        step("bind 1 " device, "ok id " (ids = device + 1))
    }
    attach(1, 3)
    # the last page of 1 GB, and a copy of it at the last of 512 GB
    map_area("last", 18, 262143, 1)
    attach(2, 4)
    copy_area("copy", "last", 134217727)
    attach(3, 5)
    map_area("next", 16, 262144, 1)
    unmap_area("border")
    # what found no frame may find some now
    for (levels = 3; levels <= 5; levels++) {
        if (!(levels in attached)) {
            attach(levels - 2, levels)
        }
    }
    copy_area("again", "next", 512)
    unmap_area("last")
    for (levels = 3; levels <= 5; levels++) {
        detach(levels)
    }
    unmap_area("copy")
    unmap_area("next")
    unmap_area("again")
    for (levels = 16; levels <= 18; levels++) {
        take_page(levels)
    }
    step("free", "ok " size)
    printf "=>\n%s", replies
}

BEGIN {
    for (size = 1; size <= 40; size++) {
        check_pool(size)
    }
}
