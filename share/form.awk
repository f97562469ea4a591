# The form of a trace: the card's fields by tag, commands and moves of clock-enable on the pins, a field as text. Document 01, "The file" and "Commands on the
# pins"; document 02, One, Two, Three, Four, Nine and Eleven.
# Numbers of 32 bits are printed by %.0f: %d stops at 2^31 - 1 in some awks.

BEGIN {
    group(1, "period mr2 groups trefi trcd trppb trpab tras trrd tfaw trtp twr twtr tdqsck trfcab trfcpb tmrr tmrw")
    group(19, "tcke txp tckesr txsr")
    group(23, "mr1")
    group(25, "gap")
    group(26, "raise")
    # the period has a second length: in ps it takes the first, in fs the second
    SIZE[1] = 4; LONG[1] = 8; SIZE[2] = 1; SIZE[3] = 2; SIZE[4] = 4; SIZE[23] = SIZE[25] = 1; SIZE[26] = 4
    ENTRY = 32; SIZE[ENTRY] = 7; TITLE[ENTRY] = "an entry"
    LAST = 33; SIZE[LAST] = 4; TITLE[LAST] = "the end field"
    HEAT = 34; SIZE[HEAT] = 5; TITLE[HEAT] = "an MR4 field"

    POW[0] = 1
    for (k = 1; k <= 24; k++)
        POW[k] = 2 * POW[k - 1]

    # by CA0r to CA3r, CA0r the lowest bit; "-" is the reserved pattern
    split("MRW WR ACT - REFPB RD ACT NOP MRR WR ACT PRE REFAB RD ACT NOP", KIND, " ")
    for (k = 16; k >= 1; k--)
        CODE[KIND[k]] = k - 1

    # moves of clock-enable and entries asleep, their ignored pins zero
    MOVE["POWER-DOWN"] = POW[20]
    MOVE["SELF-REFRESH"] = 4
    MOVE["DEEP-POWER-DOWN"] = 3
    MOVE["ASLEEP"] = 0
    MOVE["WAKE"] = 3 * POW[20]
    # clock-enable before them, and before NOP
    BEFORE["NOP"] = BEFORE["POWER-DOWN"] = BEFORE["SELF-REFRESH"] = BEFORE["DEEP-POWER-DOWN"] = "high"
    BEFORE["ASLEEP"] = BEFORE["WAKE"] = "low"

    # what a command carries, apart from its part, and the most that the pins hold of it
    TAKES["ACT"] = "bank row"
    TAKES["RD"] = TAKES["RDA"] = TAKES["WR"] = TAKES["WRA"] = "bank col"
    TAKES["PRE"] = "bank"
    TAKES["MRW"] = "ma op"
    TAKES["MRR"] = "ma"
    TAKES["PREA"] = TAKES["REFAB"] = TAKES["REFPB"] = TAKES["NOP"] = ""
    for (name in MOVE)
        TAKES[name] = ""
    MOST["bank"] = 7; MOST["row"] = 32767; MOST["col"] = 4095; MOST["ma"] = MOST["op"] = 255; MOST["part"] = 1

    # by OP2-0 of MR4: the interval in quarters of tREFI, and what a comment says of it
    QUARTERS[1] = 16; QUARTERS[2] = 8; QUARTERS[3] = 4; QUARTERS[4] = 2; QUARTERS[5] = QUARTERS[6] = 1
    RATE[1] = "tREFI * 4"; RATE[2] = "tREFI * 2"; RATE[3] = "tREFI"; RATE[4] = "tREFI / 2"; RATE[5] = RATE[6] = "tREFI / 4"
    # what is raised besides by code 110
    HOT = 6
    RAISED = "trcd trppb trpab tras trrd"
}

# Names the card's tags from `first` on, which come all or not at all; those from 1 on must come. GROUP has the first tag of each one's group, ENDS the last
# tags, TOP is the highest.
function group(first, names,    name, n, k) {
    n = split(names, name, " ")
    for (k = 1; k <= n; k++) {
        TOP = first + k - 1
        NAME[TOP] = name[k]
        TAG[name[k]] = TOP
        GROUP[TOP] = first
        SIZE[TOP] = 5
    }
    ENDS[TOP] = first
}

# Whether a field with this tag may stand behind one with tag `last`, 0 at the start of a file.
function may_follow(last, tag) {
    if (last < ENTRY && !(last in ENDS))
        return tag == last + 1
    return tag == ENTRY || tag == LAST || tag == HEAT || tag > last && (tag in GROUP) && GROUP[tag] == tag
}

# The refusal of a tag that may not come behind one with tag `last`: 17, unknown; 18, a card tag already seen or behind a higher one; 19, too early. What was read
# rises up to the entries, so one tag tells.
function tag_fault(last, tag) {
    return !(tag in SIZE) ? 17 : (tag in GROUP) && tag <= last ? 18 : 19
}

# The tag that is expected where `tag` comes and the card's tags in `seen` were read.
function tag_expected(seen, tag,    k) {
    for (k = 1; k <= TOP; k++)
        if (!(k in seen) && must_come(k, seen, tag))
            return k
    return LAST
}

# Whether the card must have tag k there: one from 1 on, or of a group of several once one of them comes.
function must_come(k, seen, tag) {
    if (!(k in GROUP) || GROUP[k] == 1)
        return (k in GROUP)
    return !(GROUP[k] in ENDS) && ((GROUP[k] in seen) || (tag in GROUP) && GROUP[tag] == GROUP[k])
}

function tag_text(tag) {
    return (tag in TITLE) ? TITLE[tag] " (tag " tag ")" : "tag " tag ((tag in NAME) ? " (" NAME[tag] ")" : "")
}

# How pins are read behind a card that ends with this tag, where without it they were read as `mode`: of "one" part that never sleeps; of one that may, by
# clock-enable before the entry, "high" or "low"; of "two" parts.
function mode_behind(tag, mode) {
    return GROUP[tag] == 1 ? "one" : GROUP[tag] == TAG["tcke"] ? "high" : tag == TAG["gap"] ? "two" : mode
}

# How they are read behind an entry with these pins.
function mode_after(p, mode) {
    return mode != "high" && mode != "low" ? mode : bits(p, 21, 1) ? "high" : "low"
}

function bits(x, from, count) {
    return int(x / POW[from]) % POW[count]
}

# The part whose CS_n alone is low, "" where both are high or both low.
function part_on(p) {
    return bits(p, 20, 1) == bits(p, 22, 1) ? "" : bits(p, 20, 1)
}

# The pins of a command that carries v. The names with A for AP or for all banks have one bit more.
function pins_of(name, v, mode,    kind, p) {
    if (name in MOVE)
        return MOVE[name]
    if (name == "NOP" && v["part"] == "")
        return (mode == "two" ? 7 : 3) * POW[20]
    kind = name
    sub(/A$/, "", kind)
    p = POW[21] + CODE[kind] + (v["part"] == "" ? 0 : v["part"] ? POW[20] : POW[22])
    if (kind == "MRW" || kind == "MRR")
        return p + v["ma"] * POW[4] + v["op"] * POW[12]
    if (kind == "ACT")
        return p + bits(v["row"], 8, 5) * POW[2] + v["bank"] * POW[7] + bits(v["row"], 0, 8) * POW[10] + bits(v["row"], 13, 2) * POW[18]
    if (kind == "RD" || kind == "WR")
        return p + bits(v["col"], 1, 2) * POW[5] + v["bank"] * POW[7] + (name != kind) * POW[10] + bits(v["col"], 3, 9) * POW[11]
    if (kind == "PRE")
        return p + (name != kind ? POW[4] : v["bank"] * POW[7])
    return p
}

# The name of the command on the pins, with what it carries in v; "-" where there is none.
function command_on(p, v,    name) {
    split("", v)
    if (bits(p, 21, 3) != 1)
        return "-"
    name = bits(p, 20, 1) ? "NOP" : KIND[1 + p % 16]
    if (name == "PRE" && bits(p, 4, 1) || (name == "RD" || name == "WR") && bits(p, 10, 1))
        name = name "A"
    v["bank"] = bits(p, 7, 3)
    if (name == "MRW" || name == "MRR") {
        v["ma"] = bits(p, 4, 8)
        v["op"] = name == "MRW" ? bits(p, 12, 8) : 0
    }
    if (name == "ACT")
        v["row"] = bits(p, 10, 8) + bits(p, 2, 5) * POW[8] + bits(p, 18, 2) * POW[13]
    if (name ~ /^(RD|WR)/)
        v["col"] = bits(p, 5, 2) * POW[1] + bits(p, 11, 9) * POW[3]
    return name
}

# Likewise with two parts: both CS_n high is NOP, of no part.
function command_of_two(p, v,    name) {
    split("", v)
    if (bits(p, 21, 1) == 0 || bits(p, 23, 1) || bits(p, 20, 3) == 2)
        return "-"
    name = command_on(p % POW[20] + (part_on(p) == "" ? 3 : 2) * POW[20], v)
    v["part"] = part_on(p)
    return name
}

function command_text(name, v,    n, i, word, text) {
    text = name
    n = split(TAKES[name], word, " ")
    for (i = 1; i <= n; i++) {
        text = text " " (word[i] == "bank" ? "" : word[i] " ")
        text = text (word[i] == "row" ? sprintf("0x%04x", v["row"]) : word[i] == "op" ? sprintf("0x%02x", v["op"]) : v[word[i]])
    }
    return text (v["part"] == "" ? "" : " part " v["part"])
}

# The name of an entry, with what it carries in v; "-" where it has none.
function name_on(p, mode, v) {
    if (mode == "two")
        return command_of_two(p, v)
    if (mode == "one" || bits(p, 21, 3) == 1 && (mode == "high" || !bits(p, 20, 1)))
        return command_on(p, v)
    split("", v)
    if (bits(p, 22, 2))
        return "-"
    if (mode == "low")
        return bits(p, 21, 1) ? "WAKE" : "ASLEEP"
    if (bits(p, 20, 1))
        return "POWER-DOWN"
    return p % 8 == MOVE["SELF-REFRESH"] ? "SELF-REFRESH" : p % 8 == MOVE["DEEP-POWER-DOWN"] ? "DEEP-POWER-DOWN" : "-"
}

# What is wrong with the pins of an entry that is called name, if anything is.
function wrong_with(p, mode, name) {
    if (mode == "two")
        return wrong_with_two(p, name)
    if (mode == "one" && bits(p, 21, 3) != 1)
        return "bits 21 to 23 are wrong"
    if (bits(p, 22, 2))
        return "bits 22 and 23 are wrong"
    if (mode == "low" && bits(p, 20, 2) == 2)
        return "clock-enable rises with CS_n low"
    if (mode == "high" && name == "-" && !bits(p, 21, 1))
        return "clock-enable falls, and the pins name no sleep"
    return name == "-" ? "reserved" : ""
}

function wrong_with_two(p, name) {
    if (bits(p, 21, 1) == 0 || bits(p, 23, 1))
        return "bit 21 must be 1 and bit 23 must be 0"
    if (bits(p, 20, 3) == 2)
        return "both CS_n are low"
    return name == "-" ? "reserved, part " part_on(p) : ""
}

# An entry by its name where the name gives these very pins, else the pins with the name in a comment.
function pins_text(p, mode,    name, v, text, note, wrong) {
    name = name_on(p, mode, v)
    text = sprintf("PINS 0x%06x", p)
    if (name != "-" && pins_of(name, v, mode) == p)
        text = command_text(name, v)
    else if (name != "-")
        note = command_text(name, v) ", with ignored bits set"
    wrong = wrong_with(p, mode, name)
    if (wrong != "")
        note = note (note == "" ? "" : "; ") wrong
    return text (note == "" ? "" : "  # " note)
}

# What a temperature field sets, by its code.
function rate_text(code,    names) {
    if (!(code in RATE))
        return "OP2-0 " (code ? "111" : "000") ": no rate"
    names = RAISED
    gsub(/ /, ", ", names)
    return RATE[code] (code == HOT ? "; raise on " names : "")
}

# The number in count bytes of b, the highest first.
function number_at(b, from, count,    x) {
    x = 0
    while (count-- > 0)
        x = 256 * x + b[from++]
    return x
}

# The same number in decimal, as text: an awk's own numbers are exact up to 2^53 only, and 8 bytes hold more.
function decimal_at(b, from, count,    part, k, carry, text) {
    for (; count-- > 0; from++) {
        carry = b[from]
        for (k = 4; k >= 1; k--) {
            carry += 256 * part[k]
            part[k] = carry % 1000000
            carry = int(carry / 1000000)
        }
    }
    text = sprintf("%06d%06d%06d%06d", part[1], part[2], part[3], part[4])
    sub(/^0+/, "", text)
    return text == "" ? "0" : text
}

# Whether the value of a field with this tag may have so many bytes.
function has_length(tag, count) {
    return (tag in SIZE) && (count == SIZE[tag] || (tag in LONG) && count == LONG[tag])
}

# How many bytes the value of the field in b has; where its head does not say one of the tag's lengths, the first of them.
function length_in(b) {
    return has_length(b[1], number_at(b, 2, 2)) ? number_at(b, 2, 2) : SIZE[b[1]]
}

# Whether the first n bytes of b are a whole field, of a listed length.
function is_field(b, n) {
    return n >= 4 && has_length(b[1], number_at(b, 2, 2)) && n >= 3 + number_at(b, 2, 2)
}

# The line of text that stands for the field in b, an entry as the mode reads it.
function field_text(b, mode,    tag) {
    tag = b[1]
    if (tag == ENTRY)
        return sprintf("%.0f ", number_at(b, 4, 4)) pins_text(number_at(b, 8, 3), mode)
    if (tag == HEAT)
        return sprintf("%.0f MR4 0x%02x  # %s", number_at(b, 4, 4), b[8], rate_text(b[8] % 8))
    if (tag == LAST)
        return sprintf("end %.0f", number_at(b, 4, 4))
    if (NAME[tag] ~ /^mr/)
        return sprintf("%s 0x%02x", NAME[tag], b[4])
    if (SIZE[tag] == 5)
        return sprintf("%s %.0f %d", NAME[tag], number_at(b, 4, 4), b[8])
    if (length_in(b) != SIZE[tag])
        return NAME[tag] " " decimal_at(b, 4, length_in(b)) " fs"
    return sprintf("%s %.0f", NAME[tag], number_at(b, 4, SIZE[tag]))
}

# The first n bytes of b as they are.
function raw_text(b, n,    i, text) {
    text = "raw"
    for (i = 1; i <= n; i++)
        text = text sprintf(" %02x", b[i])
    return text
}
