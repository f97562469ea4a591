# Refusals 17 to 19, behind verdict.awk: the tag that stands there, the one expected, and what to do.

# b has the n bytes at the offset. What to do is said where form.awk's table of tags comes to the judge's numbers.
function explain_tag(number, expected, offset, b, n, mode,    tag, behind) {
    tag = b[1]
    behind = offset > size ? tag_before(offset) : last
    print "expect " expect_text(expected, behind)
    print "where  " tag_text(tag) ((tag in SIZE) ? "" : ", " says["tag unknown"]) ", " place_behind(offset, behind) ": " standing(b, n, mode)
    if (tag in NAME)
        print "field  " NAME[tag] ": " field_words(tag, b)
    if (tag_fault(behind, tag) == number && tag_expected(begins, tag) == expected)
        print "mend   " mend_text(number, expected, offset, b, behind) (is_field(b, n) ? "" : says[offset > 0 ? "mend shifted" : "mend text"])
    if ((expected in GROUP) && GROUP[expected] > 1)
        print "group  " tags_text(GROUP[expected], group_end(expected)) ": " says["group"]
}

# The tag of the field before the offset, behind the card.
function tag_before(offset,    b, n) {
    n = read_bytes(offset - 3 - SIZE[HEAT], 3 + SIZE[HEAT], b)
    return tag_ending(b, n)
}

function place_behind(offset, behind,    text) {
    if (offset == 0)
        text = "first in the file"
    else if (behind in NAME)
        text = "behind " tag_text(behind)
    else
        text = "behind " (behind == HEAT ? heat_number(heats) : entry_number(entries)) ", counted from 1"
    return text sprintf(", at byte %.0f", offset)
}

# With the end go all others that may stand in its place.
function expect_text(tag, behind,    k, text) {
    if (tag != LAST)
        return tag_text(tag) sprintf(", %02x hex: ", tag) says["field " tag]
    for (k = 1; k < 256; k++)
        if (k != LAST && (k in SIZE) && may_follow(behind, k) && !clashes(k))
            text = text (text == "" ? "" : ", ") ((k in GROUP) ? tags_text(k, group_end(k)) : tag_text(k))
    return tag_text(tag) sprintf(", %02x hex; ", tag) says["expect too"] " " text
}

function group_end(tag) {
    while (!(tag in ENDS))
        tag++
    return tag
}

# Card tags, from one to another.
function tags_text(from, to,    k, names) {
    if (from == to)
        return tag_text(from)
    for (k = from; k <= to; k++)
        names = names (k > from ? " " : "") NAME[k]
    return "tags " from " to " to " (" names ")"
}

# Whether the tag is for two parts and the card for one that sleeps, or the other way round.
function clashes(tag,    mode) {
    mode = (tag in GROUP) ? mode_behind(tag, card_mode) : card_mode
    return mode != card_mode && mode != "one" && card_mode != "one"
}

function mend_text(number, expected, offset, b, behind,    tag, text, found) {
    tag = b[1]
    if (number == 17)
        return says["mend unknown"]
    if (clashes(tag))
        return says["mend clash"]
    if (number == 18 && !(tag in begins))
        return before_text(tag)
    text = number == 18 ? fill("mend seen", begins[tag], value[NAME[tag]]) : fill("mend early", tags_text(expected, missing_to(expected, tag)))
    found = found_behind(expected, offset)
    if (!found)
        return text meant_text(expected, b, behind)
    return text (number == 18 ? "" : fill(found == offset + 3 + SIZE[tag] ? "mend next" : "mend found", tag_text(expected), found))
}

# The words of a key, with what stands for each @ in them.
function fill(key, first, second,    text) {
    text = says[key]
    sub(/@/, first, text)
    sub(/@/, second, text)
    return text
}

# The tag belongs before the lowest that is above it.
function before_text(tag,    k) {
    for (k = tag + 1; k <= TOP; k++)
        if (k in begins)
            return fill("mend higher", tag_text(k), begins[k])
    return fill("mend behind", size)
}

# The last of the tags that must come before this one, from the expected one on.
function missing_to(expected, tag,    k) {
    for (k = expected; k + 1 < tag && must_come(k + 1, begins, tag); )
        k++
    return k
}

# A card field may be the expected one under a wrong tag where its length would do.
function meant_text(expected, b, behind) {
    return (b[1] in GROUP) && (expected in GROUP) && has_length(expected, length_in(b)) && may_follow(behind, expected) ? fill("mend meant", tag_text(expected)) : ""
}

# Where a field with this tag stands behind the one at the offset, near it and with none but whole fields between; 0 if none does.
function found_behind(tag, offset,    b, n, k) {
    n = read_bytes(offset, 8 * TOP, b)
    for (k = 3 + number_at(b, 2, 2); k < n && has_length(b[k + 1], number_at(b, k + 2, 2)); k += 3 + number_at(b, k + 2, 2))
        if (b[k + 1] == tag)
            return offset + k
    return 0
}
