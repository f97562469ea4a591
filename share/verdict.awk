# Passes the judge's lines on, behind form.awk. Behind them comes a line "ended STATUS", with an empty line before it if the last line is whole. The exit status
# is 0 for accepted, 3 for refused (some awks end with 1 when they fail), 2 where there is no verdict or the program failed; the verdict is passed on only if all
# is well. Where TRACE names the file that was judged, the verdict is followed by words for it, from the table that WORDS names. With QUIET the lines of entries are
# counted only.

BEGIN { quiet = ENVIRON["QUIET"] != "" }

/^[0-9]/ {
    entries++
    if (!quiet)
        print
    next
}

{ tail[++count] = $0 }

END {
    if (count != 3 || tail[2] != "" || tail[3] != "ended 0")
        exit 2
    if (tail[1] !~ /^accepted [0-9]+ [0-9]+ -?[0-9]+( -?[0-9]+)?$/ && tail[1] !~ /^refused [0-9]+ [0-9]+ [0-9]+ [0-9]+$/)
        exit 2
    print tail[1]
    numbers = split(tail[1], verdict, " ") - 1
    if (ENVIRON["TRACE"] != "" && verdict[1] == "refused")
        explain_refusal(verdict[2], verdict[3] + 0, verdict[4] + 0, verdict[5])
    if (ENVIRON["TRACE"] != "" && verdict[1] == "accepted")
        explain_counts()
    exit verdict[1] == "accepted" ? 0 : 3
}

function read_words(    line, part) {
    while ((getline line < ENVIRON["WORDS"]) > 0)
        if (split(line, part, / \| /) == 2)
            says[part[1]] = part[2]
}

# Up to count bytes of the file, into b; how many there are.
function read_bytes(offset, count, b,    command, line, n, m, i, part) {
    command = sprintf("od -An -v -tu1 -j %.0f -N %d <\"$TRACE\"", offset, count)
    while ((command | getline line) > 0) {
        m = split(line, part, " ")
        for (i = 1; i <= m; i++)
            b[++n] = part[i] + 0
    }
    close(command)
    return n + 0
}

# The field at the offset, into b, or as many bytes as an entry has where none stands there; how many bytes there are.
function read_field(offset, b,    n) {
    n = read_bytes(offset, 3 + SIZE[ENTRY], b)
    return (b[1] in LONG) && length_in(b) == LONG[b[1]] ? read_bytes(offset, 3 + LONG[b[1]], b) : n
}

# Two ledgers are those of two parts.
function explain_counts(    k, text) {
    read_words()
    for (k = 1; k <= numbers; k++)
        text = text (k > 1 ? ", " : "") verdict[k + 1] " " says["accepted " k (numbers > 3 ? " of two" : "")]
    print "why    " text
}

function explain_refusal(number, rule, offset, cycle,    b, n, mode, due) {
    read_words()
    n = read_field(offset, b)
    print "why    " number ": " words("number " number, "of tag " b[1])
    read_card(offset)
    heats = offset > size ? int((offset - size - (3 + SIZE[ENTRY]) * entries) / (3 + SIZE[HEAT])) : 0
    mode = mode_before(number == 12 ? offset - 3 - SIZE[LAST] : offset)
    if (number >= 17 && number <= 19) {
        explain_tag(number, rule, offset, b, n, mode)
        return
    }
    if (rule > 0)
        explain_rule(rule, offset)
    explain_mode(number, mode)
    due = card_tag(offset, b[1])
    print "where  " place(number, due, b[1]) sprintf(", at byte %.0f: ", offset) standing(b, n, mode)
    if (due)
        print "field  " NAME[due] ": " field_words(due, b)
    else if (number != 12 && is_field(b, n) && b[1] == ENTRY)
        explain_entry(number, rule, offset, cycle, number_at(b, 8, 3), mode)
    if (number == 11 && (mode == "two" || heats > 0))
        explain_account(offset, rule, cycle, b)
    if (number == 4 || number == 9)
        print "range  " range_text(ranged(number, due, number_at(b, 8, 3), mode), b)
    if (rule > 0)
        print "cycle  " cycle ": " says["cycle " number]
}

# Whose range is told: that of a card value by its tag, or of the register that an MRW writes.
function ranged(number, due, p, mode,    v) {
    if (number == 4)
        return SIZE[due] == 5 ? 5 : due
    name_on(p, mode, v)
    return TAG["mr" v["ma"]]
}

# The range of the value in b. Where the period is in fs it is told beside what it bounds.
function range_text(tag, b,    period) {
    if (tag in LONG)
        return words("range " tag, "of " length_in(b))
    period = value["period"]
    sub(/^period /, "", period)
    return period ~ /fs$/ ? fill("range " tag, " (" period ")", " ps") : fill("range " tag, "", "")
}

# What a card value is; b has the bytes in its place.
function field_words(tag, b) {
    return words("field " tag, b[1] == tag ? "of " number_at(b, 2, 2) : "")
}

# The words of a key, or of the key with more to it where that has its own.
function words(key, more) {
    return says[((key " " more) in says) ? key " " more : key]
}

# Takes the card's fields before the offset: `size` bytes of them, the last one with tag `last`, their offsets by tag in begins, their text in value, the first byte
# of each value in byte, and how pins are read behind them. Behind the card, and before the offset, stand as many entries as there are lines, and `heats`
# temperature fields.
function read_card(offset,    b, field, k) {
    read_bytes(0, 8 * TOP, b)
    size = last = 0
    card_mode = "one"
    while (size < offset && b[size + 1] in GROUP) {
        last = b[size + 1]
        # as many bytes as the longest card field has
        for (k = 1; k <= 3 + LONG[1]; k++)
            field[k] = b[size + k]
        begins[last] = size
        value[NAME[last]] = field_text(field)
        byte[NAME[last]] = field[4]
        size += 3 + length_in(field)
        card_mode = mode_behind(last, card_mode)
    }
}

# The tag of the card field that stands at the offset or is missing there; 0 where none is.
function card_tag(offset, first) {
    if (offset > size)
        return 0
    if (!(last in ENDS))
        return last + 1
    return first in GROUP && may_follow(last, first) ? first : 0
}

# How the pins at the offset are read; clock-enable is as the entry before left it.
function mode_before(offset,    b) {
    if (card_mode != "high" || entries == 0)
        return card_mode
    read_bytes(latest(ENTRY, offset), 3 + SIZE[ENTRY], b)
    return mode_after(number_at(b, 8, 3), card_mode)
}

# The tag of the field behind the card that ends with byte n of b. Where the tag of a temperature field would stand an entry has the length of its value.
function tag_ending(b, n) {
    return b[n - 2 - SIZE[HEAT]] == HEAT ? HEAT : ENTRY
}

# The offset of the latest field with this tag, of an entry or a temperature field, before another field's; there is one.
function latest(tag, offset,    b, n, from, found) {
    while (offset > size) {
        from = offset - 20000 < size ? size : offset - 20000
        n = read_bytes(from, offset - from, b)
        while (n > 2 + SIZE[ENTRY] || n > 0 && from == size) {
            found = tag_ending(b, n)
            n -= 3 + SIZE[found]
            if (found == tag)
                return from + n
        }
        offset = from + n
    }
    return size
}

# The code of the latest temperature field.
function code_before(offset,    b) {
    read_bytes(latest(HEAT, offset), 3 + SIZE[HEAT], b)
    note_heat(number_at(b, 4, 4), b[8])
    return b[8] % 8
}

function note_heat(stamp, op) {
    heat_stamp = stamp
    heat_op = op
}

function heat_text() {
    return sprintf("%.0f MR4 0x%02x", heat_stamp, heat_op)
}

# What a verdict means besides where a part may sleep, or where there are two.
function explain_mode(number, mode) {
    if ((mode == "high" || mode == "low") && ("sleep " number) in says)
        print "sleep  " says["sleep " number]
    if (mode == "two" && ("parts " number) in says)
        print "parts  " says["parts " number]
}

# An entry with pins p is refused.
function explain_entry(number, rule, offset, cycle, p, mode,    name) {
    name = name_on(p, mode)
    if (("entry " name) in says)
        print "entry  " name ": " says["entry " name]
    if (mode == "two" && number != 6 && number != 11 && part_on(p) != "")
        print "part   " part_on(p) ": " says["part entry"]
    if (number == 10 && rule == 18)
        explain_recovery(offset, cycle, p)
    if (number == 10 && rule >= 25)
        explain_wait(rule, offset, cycle, p)
}

# The entry that a cycle is counted from: where it begins, and its number.
function print_wait(cycle, offset, k,    b) {
    read_bytes(offset, 3 + SIZE[ENTRY], b)
    print "waits  " (cycle - number_at(b, 4, 4)) " cycles from " entry_number(k) sprintf(", at byte %.0f: ", offset) field_text(b, card_mode)
}

# Takes every field from the card to the offset, for the account or for the writes with AP.
function walk(offset, task,    at, b, n, k) {
    for (at = size; at < offset; at += k) {
        n = read_bytes(at, offset - at < 100000 ? offset - at : 100000, b)
        for (k = 0; n - k >= 3 + SIZE[ENTRY] || n - k > 0 && at + n == offset; k += 3 + SIZE[b[k + 1]])
            if (task == "account")
                take_field(b, k)
            else
                note_field(b, k, at)
        if (k == 0)
            return
    }
}

# What begins at the offset: a card field with tag `due`, or what comes behind the card.
function place(number, due, first) {
    if (due)
        return (first == due ? "" : "in the place of ") "tag " due " of the card"
    if (number == 12)
        return "behind the end field"
    if (first == LAST)
        return "the end field"
    if (first == HEAT)
        return heat_number(heats + 1) ", counted from 1"
    return (first == ENTRY ? "" : "in the place of ") entry_number(entries + 1) ", counted from 1"
}

function entry_number(k) {
    return sprintf("entry %.0f of the trace", k)
}

function heat_number(k) {
    return sprintf("MR4 %.0f of the trace", k)
}

function standing(b, n, mode) {
    return n == 0 ? "the file ends" : is_field(b, n) ? field_text(b, mode) : raw_text(b, n)
}

# The rule, and what the terms n(..) and i(..) in it come to on this card, and the gap.
function explain_rule(number, offset,    rest, text, hot) {
    rest = in_force(says["rule " number], offset)
    hot = rest != says["rule " number]
    print "rule   " number ": " rest
    while (match(rest, /[ni]\([a-z +]*\)/)) {
        text = text "; " in_clocks(substr(rest, RSTART, RLENGTH))
        rest = substr(rest, RSTART + RLENGTH)
    }
    if (text != "")
        text = value["period"] text
    if (rest ~ /gap$/)
        text = text (text == "" ? "" : "; ") value["gap"]
    if (text != "")
        print "card   " text
    if (hot)
        print "heat   " heat_text() ": " says["heat raised"]
}

# A rule as it is for an entry at the offset: where code 110 is in force, timings are raised.
function in_force(rule, offset) {
    return heats > 0 && in_ps("raise") > 0 && raised(rule) != rule && code_before(offset) == HOT ? raised(rule) : rule
}

# A rule with raise added to the timings that code 110 raises.
function raised(rule,    name, n, i) {
    n = split(RAISED, name, " ")
    for (i = 1; i <= n; i++)
        gsub(name[i], name[i] " + raise", rule)
    return rule
}

function in_ps(name,    word) {
    split(value[name], word, " ")
    return word[2] + 0
}

# The period in fs: one without a unit is in ps.
function period_in_fs(    word) {
    split(value["period"], word, " ")
    return word[3] == "fs" ? word[2] + 0 : 1000 * word[2]
}

# A term with the card's values that enter it.
function in_clocks(term,    name, n, i, text) {
    n = split(substr(term, 3, length(term) - 3), name, / \+ /)
    for (i = 1; i <= n; i++)
        text = text value[name[i]] "; "
    return text term " = " clocks(term)
}

# What a term comes to; of a sum, durations and floors are added.
function clocks(term,    name, part, n, i, duration, floor, period, count) {
    n = split(substr(term, 3, length(term) - 3), name, / \+ /)
    for (i = 1; i <= n; i++) {
        split(value[name[i]], part, " ")
        duration += part[2]
        floor += part[3]
    }
    duration *= 1000
    period = period_in_fs()
    count = int(duration / period)
    if (term ~ /^i/)
        return count
    if (duration % period > 0)
        count++
    return count < floor ? floor : count
}
