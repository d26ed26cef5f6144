#!/usr/bin/env bash
# The main job: proves and builds the program `listing`, and runs it on the worked bid, or on a layout and a message of your own.
# `./run.sh --help` says how.
set -Eeuo pipefail
# What fails without being looked at is 3: a caller takes 1 for a refused message.
trap 'exit 3' ERR

usage() {
    cat <<'TEXT'
./run.sh                   lists the worked bid of README.md
./run.sh LAYOUT MESSAGE    lists a message of your own: two files, named from the folder that you are in
./run.sh --help            prints this

LAYOUT holds little-endian 32-bit words; `./layout.sh WORD...` writes such a file. The program reads at most 65,536 bytes
of each file and has room for 4,000 records. On standard output there is a line for each item (type, start, end), or
`refused` with number, a, b, type and start (README.md has the table of refusals), or `too long` for a file of more than
65,536 bytes, or `cut word` for a layout of no whole number of words.

The program is proved before it is built. The first time that takes some minutes, and later a second if nothing has changed.
Standard error says how far it is.

Status: 0 accepted; 1 refused, `too long` or `cut word`; 2 misuse; 3 the program is not proved, not built, or fails.
TEXT
}

say() { printf 'run.sh: %s\n' "$*" >&2; }
misuse() { say "$*"; say "./run.sh --help says how it is used"; exit 2; }
broken() { say "$*"; exit 3; }

# progress FILE: reads what `rt` says and keeps it in FILE. It tells each crate that is proved now, and every half minute that it goes on; if
# all is proved already it tells nothing.
progress() {
    local line wait=2 status
    while true; do
        status=0
        IFS= read -r -t "$wait" line || status=$?
        if [ "$status" = 0 ]; then
            printf '%s\n' "$line" >> "$1"
            case $line in
                'rt: chose --jobs '*' for '*) say "proving ${line##* }" ;;
            esac
        elif [ "$status" -gt 128 ]; then
            # Time ran out, maybe in the midst of a line.
            printf '%s' "$line" >> "$1"
            if [ "$wait" = 2 ]; then
                say "proving the program and the five crates below it: the first time that takes some minutes"
                wait=30
            else
                say "still proving, for $SECONDS seconds now"
            fi
        else
            break
        fi
    done
}

root=$(dirname "$(realpath "$0")")
case ${1:-} in -h | --help) usage; exit 0 ;; esac
case $# in
    0)
        layout=$root/crates/listing/data/layout
        message=$root/crates/listing/stdin
        ;;
    1) misuse "a layout and a message are needed, or neither" ;;
    2) layout=$1 message=$2 ;;
    *) misuse "$# arguments where there may be two, a layout and a message" ;;
esac
for file in "$layout" "$message"; do
    [ -e "$file" ] || misuse "there is no file $file"
    [ ! -d "$file" ] || misuse "$file is a folder"
    [ -r "$file" ] || misuse "$file can't be read"
done

# Both files are opened here, in the caller's folder and before the proof. Of a layout one byte above the limit is enough.
folder=$(mktemp -d)
trap 'rm -rf "$folder"' EXIT
mkdir "$folder/run"
head -c 65537 < "$layout" > "$folder/run/layout"
exec 3< "$message"

cd "$root/crates/listing"
command -v rt > /dev/null || broken "there is no rt, which proves and builds the program, on the path"
# It is run once on nothing, since that is how it is built.
status=0
rt run 2>&1 > /dev/null < /dev/null 3<&- | progress "$folder/said" 3<&- || status=$?
if [ "$status" != 0 ]; then
    # Without the hundreds of lines on what is proved.
    grep -v ': proved$' "$folder/said" >&2 || true
    broken "the program is not proved: rt run ended with status $status"
fi
program=$root/crates/listing/out/listing
[ -x "$program" ] || broken "there is no program $program, though it is proved: remove crates/listing/out and try again"

cd "$folder/run"
"$program" <&3 > "$folder/printed" || broken "the program ended with status $?"
cat "$folder/printed"
case $(head -n 1 "$folder/printed") in
    'refused '* | 'too long' | 'cut word') exit 1 ;;
    [0-9]*' '[0-9]*' '[0-9]*) exit 0 ;;
    *) broken "the program printed no answer" ;;
esac
