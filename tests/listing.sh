#!/usr/bin/env bash
# Runs the program `listing` for every outcome, each in a folder of its own, and compares what it prints.
set -u
program=$(cd "$(dirname "$0")/.." && pwd)/crates/listing/out/listing
work=$(mktemp -d)
trap 'rm -rf "$work"' EXIT
passed=0
failed=0

# word N: N in four bytes, lowest first.
word() {
    printf "\\x$(printf %02x $(($1 & 255)))\\x$(printf %02x $(($1 >> 8 & 255)))"
    printf "\\x$(printf %02x $(($1 >> 16 & 255)))\\x$(printf %02x $(($1 >> 24 & 255)))"
}

# words N..: each N as a word.
words() {
    local n
    for n in "$@"; do word "$n"; done
}

# zeros N: N zero bytes.
zeros() {
    head -c "$1" /dev/zero
}

# bytes HEX..: these bytes.
bytes() {
    local x
    for x in "$@"; do printf "\\x$x"; done
}

# judge NAME: compares what was printed with $work/expected. Nothing is to stand on the error stream.
judge() {
    if cmp -s "$work/expected" "$work/printed" && [ ! -s "$work/errors" ]; then
        passed=$((passed + 1))
    else
        failed=$((failed + 1))
        echo "$1: expected $(head -c 300 "$work/expected"), printed $(head -c 300 "$work/printed" "$work/errors")"
    fi
}

# expect NAME: runs the program on $work/layout, where there is one, and $work/message, from a file and through a pipe.
expect() {
    local folder="$work/run"
    rm -rf "$folder"
    mkdir "$folder"
    if [ -e "$work/layout" ]; then cp -r "$work/layout" "$folder/layout"; fi
    (cd "$folder" && "$program" <"$work/message" >"$work/printed" 2>"$work/errors")
    judge "$1"
    pieces <"$work/message" 2>/dev/null | (cd "$folder" && "$program" >"$work/printed" 2>"$work/errors")
    judge "$1, through a pipe"
}

# pieces: the input in pieces, with a pause between the first two.
pieces() {
    head -c 9
    sleep 0.02
    cat
}

# says NAME LINE: the same, with one line expected.
says() {
    echo "$2" >"$work/expected"
    expect "$1"
}

# bid FIRST SECOND: a bid of layout L with these offsets.
bid() {
    bytes 2a 00 00 00 00 00 00 00
    words "$1" "$2"
    bytes 0a 0b 0c 0d
}

# tower N COUNT: a layout of N types, a number of one byte and then containers that name the one below COUNT times.
tower() {
    local i j
    word "$1"
    for ((i = 0; i < $1; i++)); do
        if [ "$i" = 0 ]; then word $(($1 + 1)); else word $(($1 + 3 + (i - 1) * (2 + $2))); fi
    done
    words 0 1
    for ((i = 1; i < $1; i++)); do
        words 6 "$2"
        for ((j = 0; j < $2; j++)); do word $((i - 1)); done
    done
}

# free N LIMIT: the layout of free bytes, with N words of leftover behind it.
free() {
    words 1 2 3 "$2"
    zeros $((4 * $1))
}

# full N: a layout of numbers of one byte (type 0), containers of 62 of them (type 1) and of N of them (type 2), and a
# container of 63 of the former and one of the latter (type 3): 63 * 63 + N + 2 records.
full() {
    local i
    words 4 5 7 71 $((73 + $1)) 0 1 6 62
    for ((i = 0; i < 62; i++)); do word 0; done
    words 6 "$1"
    for ((i = 0; i < $1; i++)); do word 0; done
    words 6 64
    for ((i = 0; i < 63; i++)); do word 1; done
    word 2
}

# numbers FROM TO: the records of numbers of one byte.
numbers() {
    local i
    for ((i = $1; i < $2; i++)); do echo "0 $i $((i + 1))"; done
}

if [ ! -x "$program" ]; then
    echo "no program at crates/listing/out/listing"
    echo "0 passed, 1 failed"
    exit 1
fi

# The worked bid.
words 4 5 7 9 11 0 8 3 16 5 8 6 3 0 1 2 >"$work/layout"
bid 16 19 >"$work/message"
printf '3 0 20\n0 0 8\n1 16 19\n2 19 20\n' >"$work/expected"
expect "the worked bid"

# Refused bids, document 01's cases 2 to 8.
: >"$work/message"
says "no bytes" "refused 1 0 8 3 0"
bid 16 19 | head -c 10 >"$work/message"
says "10 bytes" "refused 2 2 4 3 0"
bid 15 19 >"$work/message"
says "first offset 15" "refused 4 15 0 3 0"
bid 17 19 >"$work/message"
says "first offset 17" "refused 5 17 0 3 0"
bid 200 19 >"$work/message"
says "first offset 200" "refused 7 200 0 3 0"
bid 19 18 >"$work/message"
says "offsets 19, 18" "refused 6 18 0 3 0"
bid 16 20 >"$work/message"
says "offsets 16, 20" "refused 11 0 0 2 20"

# A list (type 1) of transactions, which are free bytes (type 0): README's.
words 2 3 5 3 1000 8 0 4 >"$work/layout"
{
    words 8 10
    bytes aa bb cc
} >"$work/message"
printf '1 0 11\n0 8 10\n0 10 11\n' >"$work/expected"
expect "two transactions"
: >"$work/message"
says "no transactions" "1 0 0"

# Refusals of a list of up to 3 transactions of up to 4 bytes, in document 02's order.
words 2 3 5 3 4 8 0 3 >"$work/layout"
bytes 04 00 00 >"$work/message"
says "a list of 3 bytes" "refused 2 3 4 1 0"
words 9 0 >"$work/message"
says "a list's first offset above its length" "refused 7 9 0 1 0"
words 0 0 >"$work/message"
says "a list's first offset 0" "refused 15 0 0 1 0"
words 6 0 >"$work/message"
says "a list's first offset 6" "refused 15 6 0 1 0"
words 16 0 99 98 >"$work/message"
says "four transactions" "refused 14 4 3 1 0"
words 12 11 99 >"$work/message"
says "a further offset below the first" "refused 4 11 0 1 0"
words 12 13 12 >"$work/message"
says "a further offset above the length" "refused 7 13 0 1 0"
words 12 14 13 99 >"$work/message"
says "a further offset that falls" "refused 6 13 0 1 0"
words 12 12 12 99 99 >"$work/message"
says "a transaction over its limit" "refused 14 8 4 0 12"

# Numbers of 2 bytes (type 0), in a list of up to 3 and in a vector of 3 (type 1).
words 2 3 5 0 2 8 0 3 >"$work/layout"
zeros 4 >"$work/message"
printf '1 0 4\n0 0 2\n0 2 4\n' >"$work/expected"
expect "two numbers"
zeros 5 >"$work/message"
says "two numbers and a half" "refused 1 5 2 1 0"
zeros 8 >"$work/message"
says "four numbers" "refused 14 4 3 1 0"
words 2 3 5 0 2 9 0 3 >"$work/layout"
says "a vector of the wrong length" "refused 1 8 6 1 0"
zeros 6 >"$work/message"
printf '1 0 6\n0 0 2\n0 2 4\n0 4 6\n' >"$work/expected"
expect "a vector of numbers"

# A vector of 100 transactions: more than a container has fields.
words 2 3 5 3 4 9 0 100 >"$work/layout"
for ((i = 0; i < 100; i++)); do word 400; done >"$work/message"
{
    echo "1 0 400"
    for ((i = 0; i < 100; i++)); do echo "0 400 400"; done
} >"$work/expected"
expect "a vector of 100 empty transactions"
zeros 400 >"$work/message"
says "a vector's first offset into its offsets" "refused 4 0 0 1 0"
zeros 399 >"$work/message"
says "a vector that is cut" "refused 2 3 4 1 0"

# Layouts that are empty, missing or illegal.
bid 16 19 >"$work/message"
: >"$work/layout"
says "an empty layout" "refused 20 0 0 0 0"
rm "$work/layout"
says "a missing layout" "refused 20 0 0 0 0"
mkdir "$work/layout"
says "a layout that is a folder" "refused 20 0 0 0 0"
rmdir "$work/layout"
words 4 5 7 9 11 0 8 3 16 5 8 6 3 0 1 3 >"$work/layout"
says "a layout that names no lower type" "refused 20 15 0 0 0"
words 2 3 5 0 2 9 0 0 >"$work/layout"
says "a vector of no elements" "refused 20 7 0 0 0"
words 2 3 5 0 2 9 0 2147483648 >"$work/layout"
says "a vector of 2^32 bytes" "refused 20 5 0 0 0"
words 1 2 10 >"$work/layout"
says "a kind that is none" "refused 20 2 0 0 0"

# What is too long, and what is just not.
zeros 65537 >"$work/layout"
says "a layout of 65,537 bytes" "too long"
words 4 5 7 9 11 0 8 3 16 5 8 6 3 0 1 2 >"$work/layout"
zeros 65537 >"$work/message"
says "a message of 65,537 bytes" "too long"
zeros 1000000 >"$work/message"
says "a message of 1,000,000 bytes" "too long"
zeros 65537 >"$work/message"
words 4 5 | head -c 7 >"$work/layout"
says "a long message and a cut layout" "too long"
rm "$work/layout"
says "a long message and a missing layout" "too long"
zeros 65536 >"$work/message"
free 0 65536 >"$work/layout"
says "a message of 65,536 bytes" "0 0 65536"
free 0 65535 >"$work/layout"
says "a message over its limit" "refused 14 65536 65535 0 0"
free 16380 65536 >"$work/layout"
says "a layout and a message of 65,536 bytes" "refused 20 4 0 0 0"

# Cut words.
bid 16 19 >"$work/message"
for n in 1 2 3 63 65533 65535; do
    zeros "$n" >"$work/layout"
    says "a layout of $n bytes" "cut word"
done

# As many records as there is room for, and more.
full 29 >"$work/layout"
zeros 3935 >"$work/message"
{
    echo "3 0 3935"
    for ((k = 0; k < 3906; k += 62)); do
        echo "1 $k $((k + 62))"
        numbers $k $((k + 62))
    done
    echo "2 3906 3935"
    numbers 3906 3935
} >"$work/expected"
expect "4,000 records"
full 30 >"$work/layout"
zeros 3936 >"$work/message"
says "4,001 records" "refused 22 4001 4000 0 0"
tower 3 63 >"$work/layout"
zeros 3969 >"$work/message"
says "4,033 records" "refused 22 4033 4000 0 0"
words 2 3 5 0 1 8 0 65536 >"$work/layout"
zeros 65536 >"$work/message"
says "a list of 65,536 numbers" "refused 22 65537 4000 0 0"
tower 16 2 >"$work/layout"
zeros 32768 >"$work/message"
says "65,535 records" "refused 22 65535 4000 0 0"
zeros 32767 >"$work/message"
says "65,535 records, a byte too few" "refused 1 32767 32768 15 0"

echo "$passed passed, $failed failed"
[ "$failed" = 0 ]
