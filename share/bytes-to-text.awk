# Bytes to text, behind form.awk. Reads a trace as `od -An -v -tu1` prints it. A field is read where it may come; from the first byte that fits
# nowhere on, all is raw. A card that is not whole is raw too, with its fields in comments: the text form wants all values of a group or none. So is the rest of a
# card behind a wrong tag, one field a line: its order is mended by moving lines.

BEGIN { FAULT[17] = "unknown"; FAULT[18] = "behind a higher tag"; FAULT[19] = "too early" }

{
    for (i = 1; i <= NF; i++)
        take($i + 0)
}

END {
    if (held && !lost)
        lose("")
    if (n > 0)
        put_raw(lost && why ? "" : "the field is cut")
    else if (!ended && !raws)
        put_raw("the file ends here")
}

# One byte more. Bytes not yet written are b[1] to b[n], and before them `held` card fields; last: the tag of the field before; seen: all tags before.
function take(byte) {
    b[++n] = byte
    if (!lost && n == 1 && (ended || !may_follow(last + 0, byte))) {
        lose(ended ? "bytes behind the end field" : wrong_tag(byte))
        aligned = !ended
    }
    if (!lost && n == 3 && !has_length(b[1], number_at(b, 2, 2)))
        lose("a length other than the listed one" ((b[1] in LONG) ? "s, " SIZE[b[1]] " and " LONG[b[1]] : ""))
    if (!lost && is_field(b, n))
        put_field()
    if (aligned && (b[1] in GROUP) && is_field(b, n))
        put_raw(field_text(b))
    if (n == 16) {
        put_raw("")
        aligned = 0
    }
}

function wrong_tag(tag) {
    return tag_text(tag) " " ((tag in seen) ? "seen already" : FAULT[tag_fault(last + 0, tag)]) ", " tag_text(tag_expected(seen, tag)) " expected"
}

function put_field() {
    last = b[1]
    seen[last] = 1
    if (last in GROUP)
        hold_field()
    else {
        print field_text(b, mode)
        if (last == ENTRY)
            mode = mode_after(number_at(b, 8, 3), mode)
        ended = last == LAST
    }
    n = 0
}

# Keeps a card field until its group is whole.
function hold_field(    k) {
    named[++held] = field_text(b)
    bare[held] = raw_text(b, n)
    if (!(last in ENDS))
        return
    for (k = 1; k <= held; k++)
        print named[k]
    held = 0
    mode = mode_behind(last, mode)
}

function put_raw(comment) {
    print raw_text(b, n) (comment == "" ? "" : "  # " comment)
    raws++
    n = 0
}

# From the bytes at hand on nothing can be read as a field.
function lose(reason,    k) {
    lost = 1
    why = reason
    for (k = 1; k <= held; k++) {
        print bare[k] "  # " named[k]
        raws++
    }
    held = 0
    if (reason != "")
        print "# " reason ":"
}
