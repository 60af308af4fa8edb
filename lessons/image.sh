# shellcheck shell=bash
# Functions of bash that find the parts of an image and change its bytes; read in by lessons/make and .ci/command.
# The image has N slots and E children: a header of 24 bytes, N nodes of two words, N+1 offsets, E children, the code map.
# A word has four bytes, the lowest first.

# The word at a place of a file.
word() { od -An -v -tu4 --endian=little -j "$2" -N 4 "$1" | tr -d ' '; }

# Places: the base and check of a slot, an offset, an entry of the children, the code map.
base_at() { echo $((24 + 8 * $1)); }
check_at() { echo $((28 + 8 * $1)); }
offset_at() { echo $((24 + 8 * $(word "$1" 8) + 4 * $2)); }
child_at() { echo $(($(offset_at "$1" $(($(word "$1" 8) + 1))) + 4 * $2)); }
map_at() { child_at "$1" "$(word "$1" 12)"; }

# Writes bytes, given as numbers, at a place.
put_bytes() {
    local file=$1 at=$2 escapes
    shift 2
    printf -v escapes '\\x%02x' "$@"
    printf %b "$escapes" | dd of="$file" bs=1 seek="$at" conv=notrunc status=none
}

# Writes words at a place.
put() {
    local file=$1 at=$2 n
    local -a bytes=()
    shift 2
    for n; do
        bytes+=($((n & 255)) $((n >> 8 & 255)) $((n >> 16 & 255)) $((n >> 24 & 255)))
    done
    put_bytes "$file" "$at" "${bytes[@]}"
}

# Takes a word out at a place: what lies behind it moves up.
take_out() {
    local file=$1 at=$2
    { head -c "$at" "$file" && tail -c +$((at + 5)) "$file"; } >"$file.part"
    mv "$file.part" "$file"
}

# Lowers the offsets from p up by one.
lower_offsets() {
    local file=$1 p at
    for ((p = $2; p <= $(word "$file" 8); p++)); do
        at=$(offset_at "$file" "$p")
        put "$file" "$at" $(($(word "$file" "$at") - 1))
    done
}

# The slot of the word that has a value: the parent of the end with that value. No word's slot is 0.
slot_of_value() {
    local s
    for ((s = 2; s < $(word "$1" 8); s++)); do
        if [ "$(word "$1" "$(base_at "$s")")" = $((0x80000000 + $2)) ]; then
            word "$1" "$(check_at "$s")"
            return
        fi
    done
    echo 0
}

# Makes the image of a key list by another rule than the builder's. It runs in the folder of the project; the names are absolute.
second_maker() { (cd crosscheck && cargo run --release --offline --quiet --bin second_maker "$@"); }
