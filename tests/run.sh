#!/usr/bin/env bash
# Runs run.sh and layout.sh in every way that README.md tells and in wrong ones: what is printed where, and the exit status. The program
# `listing` is the one that is built; `rt` is a stand-in, so that nothing is proved here and its failures can be had.
set -u
root=$(cd "$(dirname "$0")/.." && pwd)
run=$root/run.sh
work=$(mktemp -d)
trap 'rm -rf "$work"' EXIT
passed=0
failed=0

if [ ! -x "$root/crates/listing/out/listing" ]; then
    echo "no program at crates/listing/out/listing"
    echo "0 passed, 1 failed"
    exit 1
fi

# The stand-in says what the file `says` has, after some seconds, and ends with a status; it notes each call.
mkdir "$work/bin"
cat > "$work/bin/rt" <<'TEXT'
#!/usr/bin/env bash
echo "$PWD $*" >> "$STANDIN/calls"
sleep "${STANDIN_SECONDS:-0}"
cat "$STANDIN/says" >&2
exit "${STANDIN_STATUS:-0}"
TEXT
chmod +x "$work/bin/rt"
export STANDIN=$work PATH=$work/bin:$PATH
printf '%s\n' "rt: nothing has changed since the last proved build" > "$work/says"

# try COMMAND..: runs it, and keeps what it prints, its status and how often it called `rt`.
try() {
    : > "$work/calls"
    status=0
    "$@" > "$work/printed" 2> "$work/errors" < /dev/null || status=$?
}

# judge NAME STATUS EXPECTED CALLS: compares with the last try; EXPECTED is what stands on standard output.
judge() {
    local calls
    calls=$(wc -l < "$work/calls")
    if [ "$status" = "$2" ] && [ "$(cat "$work/printed")" = "$3" ] && [ "$calls" = "$4" ]; then
        passed=$((passed + 1))
    else
        failed=$((failed + 1))
        echo "$1: status $status and not $2, or $calls calls of rt and not $4, or another output than $3:"
        head -c 300 "$work/printed" "$work/errors"
    fi
}

# quiet NAME: nothing stands on standard error.
quiet() { holds "$1: nothing on standard error" [ ! -s "$work/errors" ]; }

# tells NAME TEXT: standard error has a line with this text.
tells() { holds "$1: standard error has: $2" grep -qF -e "$2" "$work/errors"; }

# holds NAME COMMAND..: the command ends well.
holds() {
    local name=$1
    shift
    if "$@"; then
        passed=$((passed + 1))
    else
        failed=$((failed + 1))
        echo "$name: it does not hold; standard error:"
        head -c 600 "$work/errors"
    fi
}

# section TITLE: the commands of this section of README.md, with this test's folder for /tmp.
section() {
    sed -n "/^## $1\$/,/^## /s/^    //p" "$root/README.md" | sed "s|/tmp/|$work/|g"
}

listed='3 0 20
0 0 8
1 16 19
2 19 20'
mkdir -p "$work/here/a folder"
cp "$root/crates/listing/data/layout" "$work/here/layout"
cp "$root/crates/listing/stdin" "$work/here/bid"
cd "$work/here" || exit 1

# The worked bid, from any folder and by any name of run.sh.
try "$run"
judge "no arguments" 0 "$listed" 1
quiet "no arguments"
holds "rt is called in the program's folder" [ "$(cat "$work/calls")" = "$root/crates/listing run" ]
ln -s "$run" "$work/here/linked"
try ./linked
judge "through a link" 0 "$listed" 1

# Files, named from the caller's folder.
try "$run" layout bid
judge "two files" 0 "$listed" 1
quiet "two files"
cp bid "a folder/a bid"
try "$run" ./layout "a folder/a bid"
judge "a name with a blank" 0 "$listed" 1
cp bid ./-bid
try "$run" layout -bid
judge "a name with a dash" 0 "$listed" 1
cd "a folder" || exit 1
try "$run" ../layout "a bid"
judge "a name with dots" 0 "$listed" 1
cd ..
try "$run" "$work/here/layout" "$work/here/bid"
judge "whole names" 0 "$listed" 1
try "$run" <(cat layout) <(cat bid)
judge "pipes" 0 "$listed" 1
holds "nothing is left in the caller's folder" [ "$(find . -type f | wc -l)" = 4 ]

# Refused, too long, cut word.
head -c 10 bid > cut
try "$run" layout cut
judge "a cut bid" 1 "refused 2 2 4 3 0" 1
quiet "a cut bid"
try "$run" layout /dev/null
judge "an empty bid" 1 "refused 1 0 8 3 0" 1
try "$run" /dev/null bid
judge "an empty layout" 1 "refused 20 0 0 0 0" 1
head -c 65537 /dev/zero > long
try "$run" layout long
judge "a long bid" 1 "too long" 1
quiet "a long bid"
try "$run" long bid
judge "a long layout" 1 "too long" 1
try "$run" /dev/zero bid
judge "a layout without end" 1 "too long" 1
head -c 65536 /dev/zero > longest
try "$run" layout longest
judge "a bid of 65,536 bytes" 1 "refused 4 0 0 3 0" 1
head -c 7 layout > cut
try "$run" cut bid
judge "a cut layout" 1 "cut word" 1
quiet "a cut layout"

# Misuse is told at once, before anything is proved.
try "$run" layout
judge "one argument" 2 "" 0
tells "one argument" "a layout and a message are needed, or neither"
try "$run" layout bid more
judge "three arguments" 2 "" 0
tells "three arguments" "3 arguments where there may be two"
try "$run" layout none
judge "no such bid" 2 "" 0
tells "no such bid" "there is no file none"
try "$run" none bid
judge "no such layout" 2 "" 0
try "$run" "" ""
judge "empty names" 2 "" 0
try "$run" layout "a folder"
judge "a folder for a bid" 2 "" 0
tells "a folder for a bid" "a folder is a folder"
try "$run" . bid
judge "a folder for a layout" 2 "" 0
try "$run" --verbose
judge "no such option" 2 "" 0
tells "no such option" "--help"

# Help.
for word in --help -h; do
    try "$run" "$word"
    judge "$word" 0 "$(cat "$work/printed")" 0
    quiet "$word"
    holds "$word has the limits, the two further answers and the statuses" \
        [ "$(grep -cE '65,536|4,000|too long|cut word|Status: 0 accepted; 1 refused' "$work/printed")" -ge 4 ]
done

# A proof that fails: told whole, tried once, and no status of a bid.
printf '%s\n' "src/main.rt: error: something" "logic=not-proved" > "$work/says"
for number in 1 2 3; do
    STANDIN_STATUS=$number try "$run"
    judge "rt ends with $number" 3 "" 1
    tells "rt ends with $number" "src/main.rt: error: something"
    tells "rt ends with $number" "rt run ended with status $number"
done

# A proof that takes some time: told on standard error alone.
printf '%s\n' "logic=proved" "rt: chose --jobs 2 for listing" "fn listing::main: proved" > "$work/says"
STANDIN_SECONDS=3 try "$run" layout bid
judge "a proof of some seconds" 0 "$listed" 1
tells "a proof of some seconds" "proving the program"
tells "a proof of some seconds" "minutes"
tells "a proof of some seconds" "proving listing"
holds "nothing else is told" [ "$(wc -l < "$work/errors")" = 2 ]
printf '%s\n' "rt: nothing has changed since the last proved build" > "$work/says"

# Neither rt nor a program: a copy of run.sh beside nothing, or beside a program that fails.
mkdir -p "$work/copy/crates/listing/out" "$work/tools"
cp "$run" "$work/copy"
for tool in bash cat dirname head mkdir mktemp realpath rm; do ln -s "$(command -v "$tool")" "$work/tools"; done
PATH=$work/tools try "$run" layout bid
judge "no rt" 3 "" 0
tells "no rt" "there is no rt"
try "$work/copy/run.sh" layout bid
judge "no program" 3 "" 1
tells "no program" "there is no program"
for ends in "exit 7" "kill -9 \$\$" "echo accepted" "echo 1 2" "exit 0"; do
    printf '#!/usr/bin/env bash\n%s\n' "$ends" > "$work/copy/crates/listing/out/listing"
    chmod +x "$work/copy/crates/listing/out/listing"
    try "$work/copy/run.sh" layout bid
    judge "a program that does: $ends" 3 "$(cat "$work/printed")" 1
    tells "a program that does: $ends" "run.sh: the program"
done
status=0
: > "$work/calls" > "$work/printed"
"$run" > /dev/full 2> "$work/errors" || status=$?
judge "a full disk" 3 "" 1

# Layout files: README's commands by the letter, then wrong words.
cd "$root" || exit 1
try bash -c "$(section "Make a layout and a message")"
judge "README's layout and message" 0 "1 0 11
0 8 10
0 10 11" 1
quiet "README's layout and message"
try bash -c "$(section "Break a bid, and mend it")"
judge "README's broken bid" 0 "refused 7 200 0 3 0
$listed" 2
quiet "README's broken bid"
# words WORDS..: what layout.sh writes for them, as numbers.
words() { "$root/layout.sh" "$@" | od -An -v -tu4 --endian=little | xargs; }
holds "the worked layout" cmp -s <("$root/layout.sh" 4 5 7 9 11 0 8 3 16 5 8 6 3 0 1 2) crates/listing/data/layout
holds "words in one argument" [ "$(words "4 5" "7,9, 11")" = "4 5 7 9 11" ]
holds "the least and the greatest word" [ "$(words 0 4294967295 08 256 65536 16777216)" = "0 4294967295 8 256 65536 16777216" ]
for word in 4294967296 99999999999999999999 -1 x 0x10 1.5 '*' ''; do
    try "$root/layout.sh" 1 "$word" 2
    if [ -n "$word" ]; then
        judge "no word: $word" 2 "" 0
        tells "no word: $word" "$word is no word"
    else
        holds "an empty argument has no word" [ "$status" = 0 ]
    fi
done
try "$root/layout.sh"
judge "no words" 2 "" 0
tells "no words" "words of a layout are needed"

echo "$passed passed, $failed failed"
[ "$failed" = 0 ]
