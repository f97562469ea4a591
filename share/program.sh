# Sourced by bin/judge and bench/kit.sh, which set `root`, the repository, before.

say() {
    printf '%s: %s\n' "${0##*/}" "$*" >&2
}

trouble() {
    say "$*"
    exit 2
}

# Sets what a program runs by: it is for x86-64, and the kit has the C library that it is linked with. `emulator` is empty where it runs native.
find_kit() {
    rt=$(command -v rt) || trouble 'rt, of the Rattle kit, is not on the path'
    kit=$(dirname "$(dirname "$(readlink -f "$rt")")")
    tools=$kit/toolchain
    loader=$tools/lib/ld-linux-x86-64.so.2
    [ -x "$loader" ] || trouble "the kit has no loader for its programs ($loader)"
    emulator=''
    [ "$(uname -m)" = x86_64 ] || emulator=$(command -v qemu-x86_64) || trouble 'the program is for x86-64, and there is no qemu-x86_64 on the path'
}

# ready NAME: sets `program`, the program NAME as it was proved from the sources as they stand.
ready() {
    kept=$root/target/proved
    state=$(sources) || trouble 'cannot read the sources'
    program=$kept/$1-$state
    [ -x "$program" ] || { mkdir -p "$kept" && (prove "$1") 9> "$kept/lock"; } || trouble "the program $1 is not proved from the sources as they stand"
}

# One number for all that a proof may depend on, by its contents: times do not tell of a file that is removed, or put back.
sources() {
    list=$(cd "$root" && uname -m && find crates.txt crates "$kit/KIT-ID" \( -path 'crates/*/out' ! -path 'crates/*/*/out' \) -prune -o -type f -exec sha256sum {} +) &&
        printf '%s\n' "$list" | LC_ALL=C sort | sha256sum | cut -d ' ' -f 1
}

# Proves NAME, of which rt's own stamps say what there is to do, and keeps its program under the number of the sources, where no later check reaches it. rt runs
# what it has built: on no input, and what that prints is dropped. A gate in this checkout builds the same file: not both at once.
prove() {
    flock -n 9 || { say 'another call is proving; waiting for it' && flock 9; } || return
    [ ! -x "$program" ] || return 0
    built=$root/crates/$1/out/$1
    say "proving and building the program $1; this may take some minutes"
    rm -f "$built"
    (cd "$root/crates/$1" && rt run < /dev/null 2>&1 > /dev/null) | grep -v '^rt: running ' >&2
    [ -x "$built" ] && cp "$built" "$kept/new" || return
    [ "$(sources)" = "$state" ] || { rm -f "$built" "$built.stamp"; say 'the sources changed while they were proved'; return 1; }
    mv -f "$kept/new" "$program"
}
