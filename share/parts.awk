# Two parts on one bus, behind verdict.awk: which entry of the other part a refused one waits for.

# The entry at the offset, with pins p, is refused by rule 25, 26 or 27: what its cycle is counted from.
function explain_wait(rule, offset, cycle, p,    at) {
    at = source_of(rule, offset, p)
    print_wait(cycle, at, entries + 1 - passed)
}

# The offset of the other part's latest entry that the rule names; `passed`: how many entries before the refused one it is. No delay of theirs comes to 1400 cycles
# (latencies, a timing of 1,000,000 ps at 938 ps, a gap of 255), and stamps rise.
function source_of(rule, offset, p,    wide, from, b, n, q, names) {
    wide = 3 + SIZE[ENTRY]
    from = offset - 1400 * wide
    if (from < size)
        from = size
    names = rule == 26 ? "RD MRR" : rule == 27 || KIND[1 + p % 16] == "WR" ? "WR" : "RD"
    passed = 0
    for (n = read_bytes(from, offset - from, b); n > 0; ) {
        if (tag_ending(b, n) == HEAT) {
            n -= 3 + SIZE[HEAT]
            continue
        }
        n -= wide
        passed++
        q = number_at(b, n + 8, 3)
        if (part_on(q) == 1 - part_on(p) && index(" " names " ", " " KIND[1 + q % 16] " "))
            break
    }
    return from + n
}
