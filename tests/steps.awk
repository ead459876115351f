# What the programs of tests/long have in common.

# The number in so many bytes, the least first, as structures have it.
function little(number, bytes,    text) {
    for (text = ""; bytes > 0; bytes--) {
        text = text sprintf("%02x", number % 256)
        number = int(number / 256)
    }
    return text
}

# A step, and what it is answered: the script has the one, the expected lines the other.
function step(line, reply) {
    print (part == "script" ? line : reply)
}
