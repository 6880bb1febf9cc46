# Programs at several places. A loop takes another time where it lies 16 bytes further on, so each program is
# linked once for each place, behind so many bytes.
places=(16 32 48 64)

# An object file of BYTES bytes of code that nobody runs: pad BYTES FILE.
pad() {
    printf '.section .text.pad,"axR",@progbits\n.balign 64\n.skip %d, 0x90\n.section .note.GNU-stack,"",@progbits\n' "$1" |
        cc -c -x assembler -o "$2" -
}

# Runs a linker quietly, and says what it said where it fails: link COMMAND ..
link() {
    local said
    said=$("$@" 2>&1) || { echo "$said" >&2; return 1; }
}

# Fails unless a function lies elsewhere in its 64 bytes at each place: moved ROOM/NAME FUNCTION.
moved() {
    local place at found
    found=$(for place in "${places[@]}"; do
        at=$(nm "$1.$place" | awk -v name="$2" '$2 ~ /[tT]/ && index($3, name) { print $1; exit }')
        echo $((0x${at:-0} % 64))
    done | sort -u | wc -l)
    [ "$found" = "${#places[@]}" ] || { echo "$1: $2 lies at $found of ${#places[@]} places" >&2; return 1; }
}

# Links the object file that `rt run` left, as ROOM/NAME.PLACE: place_rattle OBJECT ROOM NAME.
place_rattle() {
    local kit place
    kit=$(dirname "$(rt doc)")
    for place in "${places[@]}"; do
        pad "$place" "$2/pad.o"
        link "$kit/bin/rattle-link" --target x86_64-unknown-linux-gnu --toolchain "$kit/toolchain" \
            -o "$2/$3.$place" "$2/pad.o" "$1" "$kit"/c/lib*_c.a
    done
}

# The same of a program in C: place_c SOURCE ROOM NAME.
place_c() {
    local place
    cc -O2 -pthread -c -o "$2/$3.o" "$1"
    for place in "${places[@]}"; do
        pad "$place" "$2/pad.o"
        link cc -pthread -o "$2/$3.$place" "$2/pad.o" "$2/$3.o"
    done
}
