# The functions that bench/measures/run, bench/measures/stack, bench/tests/stack and bindings/speed share. A script sets $top, the checkout, and $room, a
# folder of its own, and reads this by `.`.
# shellcheck shell=sh disable=SC2154

# Makes the file $room/input, of $2 MiB, that repeats the file $1.
repeat_file() {
    octets=$(($2 * 1048576))
    cp -- "$1" "$room/input"
    while [ "$(wc -c <"$room/input")" -lt "$octets" ]; do
        cat "$room/input" "$room/input" >"$room/twice"
        mv -- "$room/twice" "$room/input"
    done
    truncate -s "$octets" "$room/input"
}

# Prints the nominal level of each two bits that it reads: 01 is 96, 00 is 32, 10 is -32 and 11 is -96.
levels_of() {
    od -An -v -tx1 | tr -d ' \n' | sed 's/0/\x20\x20/g; s/1/\x20\x60/g; s/2/\x20\xe0/g; s/3/\x20\xa0/g
        s/4/\x60\x20/g; s/5/\x60\x60/g; s/6/\x60\xe0/g; s/7/\x60\xa0/g; s/8/\xe0\x20/g; s/9/\xe0\x60/g; s/a/\xe0\xe0/g; s/b/\xe0\xa0/g
        s/c/\xa0\x20/g; s/d/\xa0\x60/g; s/e/\xa0\xe0/g; s/f/\xa0\xa0/g'
}

# Prints a line of a packet of 127 blocks, with a number in each.
long_packet() {
    awk 'BEGIN {
        printf "confirmed nac=293 head=56c000000001ff000800 blocks="
        for (i = 0; i < 127; i++) printf "%s%02x:%032d", i ? "," : "", i, i * 7919
        print ""
    }'
}

# Prints a bit, inverted, of each of the first 125 blocks that a packet has, with commas between them.
places() {
    awk 'BEGIN { for (i = 0; i < 125; i++) for (j = 0; j < 9; j++) printf "%s%d", i + j ? "," : "", int((320 + 196 * i + 11 * j) * 72 / 70) }'
}

# Writes the lines of the file $3 into docs/SPEED.md, between the comments $1 and $2.
write_tables() {
    awk -v begin="<!-- $1 -->" -v end="<!-- $2 -->" -v tables="$3" '
        $0 == end { inside = 0 }
        !inside { print }
        $0 == begin { inside = 1; while ((getline line < tables) > 0) print line }
    ' "$top/docs/SPEED.md" >"$room/document"
    cat "$room/document" >"$top/docs/SPEED.md"
}
