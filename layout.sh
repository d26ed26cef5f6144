#!/usr/bin/env bash
# Writes a layout file: each word given as four bytes, lowest first, on standard output.
#   ./layout.sh 4 5 7 9 11 0 8 3 16 5 8 6 3 0 1 2 > layout
# Status 2, and nothing written, if something is no word.
set -euo pipefail

words=()
for given in "$@"; do
    # Words may stand in one argument, with blanks or commas between them.
    read -r -d '' -a some <<< "${given//,/ }" || true
    words+=("${some[@]}")
done
if [ "${#words[@]}" = 0 ]; then
    echo "layout.sh: the words of a layout are needed, as in ./layout.sh 1 2 0 8 > layout" >&2
    exit 2
fi
for word in "${words[@]}"; do
    # Ten digits at most, so that the comparison is one of small numbers; 10# because 08 is no octal number.
    if [[ ! $word =~ ^[0-9]{1,10}$ ]] || ((10#$word > 4294967295)); then
        echo "layout.sh: $word is no word: a word is a number from 0 to 4294967295" >&2
        exit 2
    fi
done
for word in "${words[@]}"; do
    printf -v bytes '\\x%02x' $((10#$word & 255)) $((10#$word >> 8 & 255)) $((10#$word >> 16 & 255)) $((10#$word >> 24))
    printf '%b' "$bytes"
done
