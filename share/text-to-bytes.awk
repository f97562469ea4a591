# Text to bytes, behind form.awk. Prints every byte as \ooo when all of the text was read; if a line is wrong, nothing but reasons on standard error.

BEGIN {
    from = ENVIRON["FROM"]
    # the mode where it is not known: in a text without a card, and behind raw
    UNKNOWN = "unknown"
    # what is taken for a unit; the first two are units of the period
    UNITS = "(fs|ps|ns|us|ms|s|ck|nck|tck|clocks)$"
    PERIOD = "wanted are whole ps (1250 or 1250 ps), ps with one to three digits behind a point (1071.811 ps), or whole fs (1071811 fs)"
    # document 01's bench card
    split("1250 0x1a 8192 3900000 18000/3 18000/3 21000/3 42000/3 10000/2 50000/8 7500/4 15000/4 7500/4 5500/0 130000/0 60000/0 0/4 0/10", BENCH, " ")
    for (k = 0; k < 256; k++)
        OCTAL[k] = sprintf("\\%03o", k)
}

{ sub(/#.*/, ""); sub(/\r$/, "") }
NF == 0 { next }

behind == "end" && $1 != "raw" {
    bad("only raw may stand behind end")
    next
}
{ word = tolower($1) }
word == "card" || word in TAG { card_line(word); next }
!begun { begin() }
word == "raw" { raw_line(); next }
word == "end" {
    put(octal(LAST, 1) octal(SIZE[LAST], 2) octal(number($2, 4294967295, "end"), 4))
    no_more(2)
    behind = "end"
    next
}
word ~ /^[0-9]/ { entry_line(); next }
{ bad("unknown word " $1) }

END {
    if (!begun)
        begin()
    if (behind == "entry" || behind == "")
        bad("the text ends without end")
    if (wrong) {
        close(complaints)
        exit 2
    }
    for (k = 1; k <= lines; k++)
        printf "%s", line[k]
}

function bad(reason) {
    complaints = "cat 1>&2"
    printf "%s:%d: %s\n", from, NR, reason | complaints
    wrong = 1
}

function put(text) {
    line[++lines] = text
}

function octal(x, count,    text) {
    text = ""
    while (count-- > 0) {
        text = OCTAL[x % 256] text
        x = int(x / 256)
    }
    return text
}

# The number that a word is, decimal or 0x and hexadecimal, from 0 to most.
function number(word, most, what,    i, x) {
    x = 0
    if (word == "")
        bad(what ": a number is missing")
    else if (word ~ /^[0-9]+$/)
        x = word + 0
    else if (word ~ /^0[xX][0-9a-fA-F]+$/)
        for (i = 3; i <= length(word); i++)
            x = 16 * x + digit(substr(word, i, 1))
    else
        bad(what ": " word " is no number")
    if (x > most) {
        bad(what ": " word " is above " sprintf("%.0f", most))
        x = 0
    }
    return x
}

function digit(letter) {
    return index("0123456789abcdef", tolower(letter)) - 1
}

function no_more(words) {
    if (NF > words)
        bad("unknown word " $(words + 1))
}

function card_line(word,    tag, both) {
    if (begun)
        bad(carded ? "card values stand before all else" : "a text that begins with raw has no card")
    else if (word != "card") {
        if (given[word]++)
            bad(word " is given twice")
        value_line(TAG[word])
    } else if (carded)
        bad("card bench stands once, before the values that differ")
    else if (tolower($2) != "bench")
        bad("card: the only card known by name is bench")
    else {
        for (tag = 1; tag in BENCH; tag++) {
            split(BENCH[tag], both, "/")
            set_value(tag, both[1], both[2])
        }
        no_more(2)
    }
    carded = 1
}

function value_line(tag) {
    if (tag in LONG)
        period_line(tag, tolower($3))
    else if (unit_word() != "")
        bad(NAME[tag] ": " unit_word() " is out of place: the period alone takes a unit; durations are in ps, floors in clocks")
    else {
        set_value(tag, $2, $3)
        no_more(SIZE[tag] == 5 ? 3 : 2)
    }
    if (!(tag in value))
        keep(tag, "")
}

# The first word of the line that is a unit, or a number and a unit in one.
function unit_word(    i) {
    for (i = 2; i <= NF; i++)
        if (tolower($i) ~ "^[0-9.]*" UNITS)
            return $i
    return ""
}

function keep(tag, octals) {
    value[tag] = octals
    wanted[GROUP[tag]] = 1
}

# A timing is a duration of 4 bytes and a floor of 1; any other value is one number as long as its field.
function set_value(tag, first, second,    size) {
    size = SIZE[tag] == 5 ? 4 : SIZE[tag]
    first = octal(number(first, (size == 4 ? 4294967296 : POW[8 * size]) - 1, NAME[tag]), size)
    keep(tag, first (SIZE[tag] == 5 ? octal(number(second, 255, NAME[tag] ", floor"), 1) : ""))
}

# The period takes its first length in whole ps, its second in fs and in ps with a point.
function period_line(tag, unit,    fault) {
    fault = $2 == "" ? "a number is missing" : period_fault($2, unit)
    if (fault != "") {
        bad(NAME[tag] ": " fault "; " PERIOD)
        return
    }
    if (unit == "fs")
        keep(tag, long_octal($2))
    else if ($2 ~ /\./)
        keep(tag, long_octal(in_fs($2)))
    else
        set_value(tag, $2)
    no_more(3)
}

# What is wrong with a period that is written as this word and this unit, if anything is.
function period_fault(word, unit) {
    if (word ~ /^[-+]/)
        return word " has a sign"
    if (word ~ /^[0-9.]+[eE][-+]?[0-9]*$/)
        return word " has an exponent"
    if (tolower(word) ~ "^[0-9.]+" UNITS)
        return word " has no blank before its unit"
    if (word !~ /^[0-9]+(\.[0-9]+)?$/ && word !~ /^0[xX][0-9a-fA-F]+$/)
        return word " is no number"
    if (unit != "" && unit != "ps" && unit != "fs")
        return "unknown unit " $3
    if (word ~ /\.[0-9][0-9][0-9][0-9]/)
        return word " has more than three digits behind the point"
    if (word ~ /\./ && unit != "ps")
        return unit == "" ? word " has a point and no unit" : word " has a point, and fs are whole"
    return ""
}

# Picoseconds with a point, as femtoseconds.
function in_fs(word,    half) {
    split(word, half, ".")
    return half[1] substr(half[2] "00", 1, 3)
}

# A whole number in 8 bytes. It is taken digit by digit: an awk's own numbers are exact up to 2^53 only.
function long_octal(word,    base, i, k, carry, part, text) {
    base = word ~ /^0[xX]/ ? 16 : 10
    for (i = base == 16 ? 3 : 1; i <= length(word); i++) {
        carry = digit(substr(word, i, 1))
        for (k = 8; k >= 1; k--) {
            carry += base * part[k]
            part[k] = carry % 256
            carry = int(carry / 256)
        }
        if (carry > 0) {
            bad("period: " word " fs is above 18446744073709551615")
            return ""
        }
    }
    for (k = 1; k <= 8; k++)
        text = text octal(part[k], 1)
    return text
}

# Puts the card, before the first line that is none of it.
function begin(    tag, missing) {
    begun = 1
    mode = UNKNOWN
    if (!carded && tolower($1) == "raw" && NF > 0)
        return
    wanted[1] = 1
    for (tag = 1; tag <= TOP; tag++) {
        if (!(tag in GROUP) || !(GROUP[tag] in wanted))
            continue
        if (!(tag in value))
            missing = missing " " NAME[tag]
        put(octal(tag, 1) octal(length(value[tag]) / length(OCTAL[0]), 2) value[tag])
        mode = mode_behind(tag, mode)
    }
    if (missing != "")
        bad("the card lacks" missing)
}

function raw_line(    i, text) {
    for (i = 2; i <= NF; i++)
        if ($i ~ /^[0-9a-fA-F][0-9a-fA-F]$/)
            text = text octal(16 * digit(substr($i, 1, 1)) + digit(substr($i, 2, 1)), 1)
        else
            bad("raw: " $i " is no byte of two hexadecimal digits")
    put(text)
    if (mode != "two")
        mode = UNKNOWN
    if (behind != "end")
        behind = "raw"
}

function entry_line(    stamp, name, pins) {
    behind = "entry"
    stamp = number($1, 4294967295, "stamp")
    name = toupper($2)
    if (name == "MR4") {
        heat_line(stamp)
        return
    }
    if (name == "PINS") {
        pins = number($3, 16777215, "pins")
        no_more(3)
    } else if (name in TAKES)
        pins = named_pins(name)
    else {
        bad(name == "" ? "the command is missing" : "unknown command " $2)
        return
    }
    put(octal(ENTRY, 1) octal(SIZE[ENTRY], 2) octal(stamp, 4) octal(pins, 3))
    if (level_good(name))
        mode = mode_after(pins, mode)
}

# A temperature field. It leaves the mode as it is, and is for both parts where there are two.
function heat_line(stamp) {
    put(octal(HEAT, 1) octal(SIZE[HEAT], 2) octal(stamp, 4) octal(number($3, 255, "MR4"), 1))
    if (tolower($4) == "part")
        bad("MR4 names no part")
    else
        no_more(3)
}

# A fall, a rise, an entry asleep and NOP stand where clock-enable makes them that, else they move nothing. A command asleep is the judge's to refuse.
function level_good(name) {
    if (name in MOVE && mode == "one")
        bad(name ": the card lacks tcke txp tckesr txsr")
    else if (name in MOVE && mode == "two")
        bad(name ": a card with gap has no sleep")
    else if (name in BEFORE && BEFORE[name] == "low" && mode == "high")
        bad(name ": the part is awake")
    else if (name in BEFORE && BEFORE[name] == "high" && mode == "low")
        bad(name ": the part is asleep, which wants ASLEEP or WAKE")
    else
        return 1
    return 0
}

# The pins of the line's command: its bank, if it has one, then pairs of a word and a number. Row and column may be left out and are 0.
function named_pins(name,    i, word, v) {
    i = 3
    if (TAKES[name] ~ /bank/)
        v["bank"] = number($(i++), MOST["bank"], "bank")
    for (; i <= NF; i += 2) {
        word = tolower($i)
        if (!may_carry(name, $i))
            return pins_of(name, v, mode)
        if (word in v)
            bad(word " is given twice")
        v[word] = number($(i + 1), MOST[word], word)
    }
    if (name ~ /^MR/ && !("ma" in v))
        bad(name ": ma is missing")
    if (name == "MRW" && !("op" in v))
        bad(name ": op is missing")
    if (mode == "two" && name != "NOP" && !(name in MOVE) && !("part" in v))
        bad(name ": part is missing, 0 or 1")
    if (v["col"] % 2 == 1)
        bad("col: an odd column has no place on the pins")
    return pins_of(name, v, mode)
}

# Whether the command carries what the word says; a part where there are two, or may be.
function may_carry(name, typed,    word, all) {
    word = tolower(typed)
    all = TAKES[name] (mode == "two" && !(name in MOVE) ? " part" : "")
    sub(/^ /, "", all)
    if (word == "part" && mode == UNKNOWN && !(name in MOVE))
        return 1
    if (word != "bank" && index(" " all " ", " " word " "))
        return 1
    if (word == "part" && mode != "two" && !(name in MOVE))
        bad("part: the card lacks gap, so there is one part")
    else
        bad(name " takes " (all == "" ? "nothing" : all) ", not " typed)
    return 0
}
