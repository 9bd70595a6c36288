#!/usr/bin/env bash
# The files of vectors/, which others build their end by:
#   made     vectors/make makes each of them again, byte for byte; it holds each line to the documents' words
#   program  target/bin/trace answers every day of office.txt by its columns
#   model    so does the model in tests/common/model.rs (tests/vectors.rs)
#   calls    so do the calls for C in target/staticlib/libroom.a, on the lines of all files (tests/vectors.c)
# tests/vectors.sh --make makes them anew instead. The last line is 'N passed, M failed'; the exit status is 0 only
# where M is 0.
set -u
cd "$(dirname "$(readlink -f "${BASH_SOURCE[0]}")")/.." || exit 1
[ "${1:-}" != --make ] || exec vectors/make
scratch=target/tests/vectors passed=0 failed=0
rm -rf "$scratch" && mkdir -p "$scratch" || exit 1

# verdict NAME STATUS: one check
verdict() {
    if [ "$2" -eq 0 ]; then
        passed=$((passed + 1))
    else
        failed=$((failed + 1))
        echo "FAILED: $1"
    fi
}

# counted NAME COMMAND..: a command that counts for itself, and says so in its last line
counted() {
    local name=$1 said status=0
    shift
    said=$("$@") || status=$?
    grep '^FAILED' <<<"$said"
    if [[ ${said##*$'\n'} =~ ^([0-9]+)\ passed,\ ([0-9]+)\ failed$ ]] && [ "${BASH_REMATCH[1]}" -gt 0 ]; then
        passed=$((passed + BASH_REMATCH[1])) failed=$((failed + BASH_REMATCH[2]))
        [ "$status" -eq 0 ] || [ "${BASH_REMATCH[2]}" -gt 0 ] || verdict "$name: status $status" 1
    else
        verdict "$name" 1
    fi
}

vectors/make "$scratch"
verdict 'vectors/make' $?
[ "$(cd vectors && echo *.txt)" = "$(cd "$scratch" && echo *.txt)" ]
verdict 'vectors/make makes the files that are there' $?
for file in vectors/*.txt; do
    cmp "$file" "$scratch/${file##*/}"
    verdict "$file is what vectors/make makes" $?
done

# Day by day: the records end to end behind the office byte, and the program's refusals, counts and bytes.
title='' office='' input='' expected=''
day() {
    local got
    [ -z "$expected" ] || {
        got=$(printf '%b' "$(sed 's/../\\x&/g' <<<"$office$input")" | target/bin/trace |
            while read -r _ refusal count _ bytes; do echo "$refusal $count ${bytes:--}"; done)
        [ "$got"$'\n' = "$expected" ]
        verdict "trace on $title" $?
    }
    title=${1:-} office='' input='' expected=''
}
while IFS= read -r line; do
    case $line in
    '# DAY '* | '# CASE '*) day "${line#\# }" ;;
    '#'*) ;;
    *)
        read -r who in refusal out <<<"$line"
        [ "$who" = - ] || office=$(printf '%02x' "$who")
        input+=${in#-} count=${out#-}
        expected+="$refusal $((${#count} / 2)) $out"$'\n'
        ;;
    esac
done <vectors/office.txt
day

# Where one is not built, running it fails.
rustc -O --edition 2021 -D warnings tests/vectors.rs -o "$scratch/model"
counted 'the model on office.txt' "$scratch/model" vectors/office.txt
gcc -std=c11 -O2 -Wall -Wextra -Werror -Iinclude tests/vectors.c target/staticlib/libroom.a -o "$scratch/calls"
counted 'the calls for C on all files' "$scratch/calls" vectors/*.txt

echo "$passed passed, $failed failed"
[ "$failed" -eq 0 ]
