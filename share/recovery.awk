# Rule 18, behind verdict.awk: which write with AP a refused entry waits for, and what nWR was when it came.

BEGIN {
    # by OP7-5 of MR1, with OP4 of MR2 0 and then 1; - is no listed pair
    split("- 3 - - 6 - 8 9 10 11 12 - 14 - 16 -", NWR, " ")
    # by OP3-0 of MR2, of set A and then of set B
    split("- 1 - - 3 - 4 5 6 6 6 - 8 - 8 - - 1 - - 3 - 4 5 8 9 9 - 11 - 13 -", WL, " ")
}

# The entry at the offset, with pins p, is refused by rule 18.
function explain_recovery(offset, cycle, p,    closing, nwr, name) {
    closing = in_force("n(trppb)", offset)
    find_write(offset, cycle - clocks(closing), p)
    nwr = recovery(at_write[1], at_write[2])
    name = programmed(at_write[1], at_write[2]) ? "nWR" : "n(twr)"
    print_wait(cycle, write_at, write_entry)
    print "nWR    " nwr ": " registers_text()
    print "sum    WL " latency(at_write[2]) " + 5 + " name " " nwr " + " closing " " clocks(closing) " = " latency(at_write[2]) + 5 + nwr + clocks(closing)
}

# at_write: MR1 and MR2 as they stood at the write, MR1 empty where there was none.
function registers_text() {
    if (at_write[1] == "")
        return says["nwr none"]
    return sprintf("MR1 0x%02x (OP7-5 %d%d%d) and MR2 0x%02x (OP4 %d), ", at_write[1], bits(at_write[1], 7, 1), bits(at_write[1], 6, 1), bits(at_write[1], 5, 1),
        at_write[2], bits(at_write[2], 4, 1)) says[programmed(at_write[1], at_write[2]) ? "nwr listed" : "nwr unlisted"]
}

# The write whose recovery is over at this cycle. No two are over at once: between two with other registers stands an MRW, which waits for the first.
function find_write(offset, over, p) {
    recovered = over
    waiting = part_on(p)
    register[1] = byte["mr1"]
    register[2] = byte["mr2"]
    met = 0
    walk(offset, "writes")
}

# The field behind the first k bytes of b, which begin at an offset.
function note_field(b, k, offset) {
    if (b[k + 1] != ENTRY)
        return
    met++
    # the lowest pins of MRW or WR
    if (b[k + 10] % 16 == CODE["MRW"] || b[k + 10] % 8 == CODE["WR"])
        note_entry(number_at(b, k + 4, 4), number_at(b, k + 8, 3), offset + k)
}

function note_entry(stamp, p, offset,    name, v) {
    name = name_on(p, card_mode, v)
    if (card_mode == "two" && v["part"] != waiting)
        return
    if (name == "MRW")
        register[v["ma"]] = v["op"]
    if (name != "WRA" || stamp + latency(register[2]) + 5 + recovery(register[1], register[2]) != recovered)
        return
    at_write[1] = register[1]
    at_write[2] = register[2]
    write_at = offset
    write_entry = met
}

function latency(mr2) {
    return WL[1 + bits(mr2, 0, 4) + 16 * bits(mr2, 6, 1)]
}

# nWR by these registers, 0 where they give none.
function programmed(mr1, mr2) {
    return mr1 == "" ? 0 : NWR[1 + bits(mr1, 5, 3) + 8 * bits(mr2, 4, 1)] + 0
}

function recovery(mr1, mr2) {
    return programmed(mr1, mr2) ? programmed(mr1, mr2) : clocks("n(twr)")
}
