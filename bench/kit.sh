# Sourced by compare and speed, which set `here` and `work` before.
root=$(dirname "$here")
. "$root/share/program.sh"

# rattle NAME: the other judge is this repository's program NAME. Both judges run alike: native on x86-64, elsewhere both under `qemu-x86_64`.
rattle() {
    find_kit
    if [ -n "$emulator" ]; then
        ln -s "$emulator" "$work/qemu-x86_64"
        RUN=${RUN:-$work/qemu-x86_64} CC=${CC:-x86_64-linux-gnu-gcc} CFLAGS=${CFLAGS:--static}
        command -v "${CC%% *}" > /dev/null || trouble "there is no $CC; Debian's package gcc-x86-64-linux-gnu has x86_64-linux-gnu-gcc"
    fi
    ready "$1"
    # links, since a command is parted at blanks
    ln -s "$tools/lib" "$work/lib"
    ln -s "$program" "$work/rattle"
    OTHER="$work/lib/${loader##*/} --library-path $work/lib $work/rattle"
}

# The judge in C, as $work/judge, and what makes the traces.
build() {
    say 'building the C judge'
    $CC -std=c11 -O3 $CFLAGS -o "$work/judge" "$here/judge.c"
    $HOSTCC -std=c11 -O2 -o "$work/generate" "$here/generate.c"
}
