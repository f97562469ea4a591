# The refresh account over a file, behind verdict.awk: which interval is in force where it fails, and whose account it is. It goes by the numbers of counted
# cycles: `reached` is the last one, and `skipped` by how much a cycle's number is lower.

# The account fails at the cycle, before the field at the offset or at it; b has that field.
function explain_account(offset, rule, cycle, b,    part) {
    interval = next_due = interval_by(4)
    level = card_mode
    walk(offset, "account")
    fall_due(counted(cycle))
    if (heats > 0) {
        print "heat   " interval ": " says["heat interval"] " " heat_text() ", " RATE[heat_op % 8]
        print "due    " sprintf("%.0f", first_due) ": " says["due " due_by]
    }
    if (number_at(b, 4, 4) <= cycle)
        take_field(b, 0)
    part = card_mode == "two" && !fails(0, cycle)
    if (heats > 0 && rule == 20)
        print "gap    " sprintf("%.0f: ", done[part] > since ? done_stamp[part] : heat_stamp) says["gap " (done[part] > since ? "refresh" : "MR4")]
    if (card_mode == "two")
        print "part   " part ": " says["part account" (fails(0, cycle) && fails(1, cycle) ? "s" : "")]
}

# The field behind the first k bytes of b. Without sleeps an entry that has not the lowest pins of REFAB or REFPB is passed over at once.
function take_field(b, k) {
    if (b[k + 1] == HEAT)
        take_heat(number_at(b, k + 4, 4), b[k + 8])
    else if (b[k + 1] == ENTRY && (card_mode == "high" || b[k + 10] % 8 == 4))
        take_entry(number_at(b, k + 4, 4), number_at(b, k + 8, 3))
}

# An interval of so many quarters of tREFI, in cycles.
function interval_by(quarters,    cycles) {
    cycles = int(1000 * in_ps("trefi") * quarters / (4 * period_in_fs()))
    return cycles > 1 ? cycles : 1
}

# The number of a cycle behind all that was taken.
function counted(cycle) {
    return stopped ? reached : cycle - skipped
}

# What falls due up to this number. fallen: how many; first_due: the cycle of the first behind the latest temperature field.
function fall_due(n,    more) {
    reached = n
    if (next_due > n)
        return
    if (first_due == "")
        first_due = next_due + skipped
    more = int((n - next_due) / interval) + 1
    fallen += more
    next_due += more * interval
}

# due_by: whether the next due is by the interval of before or by the new one.
function take_heat(stamp, op) {
    fall_due(counted(stamp))
    note_heat(stamp, op)
    interval = interval_by(QUARTERS[op % 8])
    due_by = reached + interval < next_due ? "new" : "old"
    if (due_by == "new")
        next_due = reached + interval
    first_due = ""
    since = reached
}

# An accepted entry, or the refused one at its stamp.
function take_entry(stamp, p,    name) {
    fall_due(counted(stamp))
    name = name_on(p, level)
    if (name == "SELF-REFRESH" || name == "DEEP-POWER-DOWN")
        stopped = 1
    if (name == "WAKE" && stopped) {
        skipped = stamp - reached
        stopped = turn[0] = 0
    }
    level = mode_after(p, level)
    if (name ~ /^REF/)
        take_refresh(stamp, name, card_mode == "two" ? part_on(p) : 0)
}

# turn: a part's round counter; ledger, done, done_stamp: its ledger after its last counted refresh less all that had fallen due, the number and the cycle of that.
function take_refresh(stamp, name, part) {
    turn[part] = name == "REFAB" ? 8 : turn[part] + 1
    if (turn[part] < 8)
        return
    turn[part] = 0
    ledger[part] = (owed(part) > -8 ? owed(part) - 1 : -8) - fallen
    done[part] = reached
    done_stamp[part] = stamp
}

function owed(part) {
    return ledger[part] + fallen
}

function fails(part, cycle) {
    fall_due(counted(cycle))
    return owed(part) > 8 || reached - (done[part] > since ? done[part] : since) > 9 * interval
}
