# A user takes all frames of the largest pool for its pages, in order, and no further one; one that comes back is given
# again.
#
#     awk -v part=script -f ../steps.awk -f whole_pool_of_pages.awk      # the script
#     awk -v part=expected -f ../steps.awk -f whole_pool_of_pages.awk    # its replies

BEGIN {
    FRAMES = 4096
    if (part == "script") {
        print "pool " FRAMES "\nuser 0\nfile 1\nbegin"
    }
    step("free", "ok " FRAMES)
    for (page = 0; page < FRAMES; page++) {
        step(sprintf("umap 1 %x", 4096 * page), "ok frame " page)
    }
    step("free", "ok 0")
    step(sprintf("umap 1 %x", 4096 * FRAMES), "12 Frames")
    step(sprintf("uunmap 1 %x", 4096 * (FRAMES - 1)), "ok")
    step("free", "ok 1")
    step(sprintf("umap 1 %x", 4096 * FRAMES), "ok frame " FRAMES - 1)
}
