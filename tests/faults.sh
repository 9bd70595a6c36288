#!/usr/bin/env bash
# The programs `room` and `trace` where the input comes in pieces, comes late, ends early or cannot be read, where the
# output is full or cannot be written, where a signal interrupts, and where there is an argument. Arguments: the two
# programs. The lines expected are document 01's. The last line is 'N passed, M failed'.
set -u
room=$(readlink -f "$1") trace=$(readlink -f "$2") common=$(dirname "$(readlink -f "${BASH_SOURCE[0]}")")/common
mkdir -p target/tests/faults && cd target/tests/faults || exit 1
gcc -std=c11 -O2 -Wall -Wextra -Werror "$common/faults.c" -o at_fault || exit 1

passed=0 failed=0

# same NAME EXPECTED GOT: two files that must be equal
same() {
    if cmp -s "$2" "$3"; then
        passed=$((passed + 1))
    else
        failed=$((failed + 1))
        echo "FAILED: $1"
        diff "$2" "$3" | head -n 5
    fi
}

# case_of NAME LINES COMMAND..: what the command prints on standard output, held to the lines
case_of() {
    local name=$1 lines=$2
    shift 2
    printf '%s' "$lines" >expected
    "$@" >got
    same "$name" expected got
}

# both NAME LINES SENTENCE COMMAND..: what the command prints on standard output and on standard error, and that it
# ends with 0
both() {
    local name=$1 lines=$2 said=$3 status
    shift 3
    printf '%s' "$lines" >expected
    printf '%s' "$said" >expected_said
    timeout 60 "$@" >got 2>got_said
    status=$?
    same "$name" expected got
    same "$name, standard error" expected_said got_said
    holds "$name, status" [ "$status" = 0 ]
}

# holds NAME COMMAND..: passed where the command ends with 0
holds() {
    local name=$1
    shift
    if "$@"; then
        passed=$((passed + 1))
    else
        failed=$((failed + 1))
        echo "FAILED: $name"
    fi
}

zeros() { head -c "$1" /dev/zero; }

# report SEATS: a report of room 0 whose joining set has this last byte; nobody leaves
report() {
    printf 'NE\0' && zeros 7 && printf "$1" && zeros 8
}

# P(fast, 1, 1, 0, 0) of room 0
proposal() {
    printf 'PR\0\1\1' && zeros 7 && printf '\21\0\0\0\1\0\0\0\1' && zeros 64
}

# office 0, and the records of A, B, C, D
{ printf '\0' && report '\1' && report '\20' && proposal && proposal; } >days
a='1 0 94 2'$'\n'
days=$a'2 0 100 2'$'\n''3 0 79 3'$'\n''4 11 0 3'$'\n'
none='0 1 0 0'$'\n'
sentence='The output cannot be written.'$'\n'
unread='The input cannot be read.'$'\n'
reads='No argument is read; standard input is one byte, the office, then reports and proposals end to end.'$'\n'

# the input in pieces of some bytes
pieces() { dd if="$2" bs="$1" 2>pieces.err | timeout 60 "$room"; }
from() { timeout 60 "$room" <"$1"; }

case_of 'a file' "$days" from days
for n in 1 2 3 7 18 19 20 84 85 86 100; do
    case_of "pieces of $n bytes" "$days" pieces "$n" days
done

# The input ends inside a record: 4 for under two bytes, else 5. No view number is printed then.
for n in 21 22 23 38; do
    head -c "$n" days >cut
    if [ "$n" = 21 ]; then refusal=4; else refusal=5; fi
    case_of "the input ends after $n bytes" "$a""2 $refusal 0 0"$'\n' from cut
    case_of "the input ends after $n bytes, in pieces" "$a""2 $refusal 0 0"$'\n' pieces 1 cut
done
head -c 20 days >cut
case_of 'the input ends with a record' "$a" from cut

# After another mark the program stops; what comes later is not read.
{ cat cut && printf 'SC' && tail -c +21 days; } >other
case_of 'another mark' "$a"'2 4 0 0'$'\n' from other
case_of 'another mark, in pieces' "$a"'2 4 0 0'$'\n' pieces 1 other

# After a room above 7 it goes on, and the record has its mark's length.
{ cat cut && printf 'NE\10' && zeros 16 && printf 'PR\377' && zeros 82 && tail -c +21 days; } >above_7
passed_over=$a'2 20 0 0'$'\n''3 20 0 0'$'\n''4 0 100 2'$'\n''5 0 79 3'$'\n''6 11 0 3'$'\n'
case_of 'rooms above 7' "$passed_over" from above_7
case_of 'rooms above 7, in pieces' "$passed_over" pieces 1 above_7

# No office byte, or one above 15.
: >empty && printf '\20' >above && printf '\17' >highest
case_of 'no office byte' "$none" from empty
case_of 'office 16' "$none" from above
case_of 'office 15 and no record' '' from highest

# The lines of the first records of days, for either program.
lines_of() {
    if [ "$1" = "$room" ]; then head -n "$2" <<<"${days%$'\n'}"; else "$1" <days | head -n "$2"; fi
}

for program in "$room" "$trace"; do
    name=${program##*/}

    # Where the input cannot be read: one sentence, and no line where the office byte had not come.
    both "$name: the input is a directory" '' "$unread" "$program" <.
    both "$name: the input is closed" '' "$unread" "$program" <&-

    # Where a read fails later, the records that came whole have their lines, and the rest has none.
    whole=-1
    for n in 0 1 2 19 20 21 22 23 38 39 40 123 124 208 209; do
        head -c "$n" days >cut
        case $n in 1 | 20 | 39 | 124 | 209) whole=$((whole + 1)) ;; esac
        due=
        [ "$whole" -le 0 ] || due=$(lines_of "$program" "$whole")$'\n'
        both "$name: a read fails after $n bytes" "$due" "$unread" ./at_fault reset "$program" cut
    done
    # .. but what was stopped at before that is as on any input.
    both "$name: another mark, then a read would fail" "$("$program" <other)"$'\n' '' ./at_fault reset "$program" other
    both "$name: office 16, then a read would fail" "$none" '' ./at_fault reset "$program" above

    # An input that has nothing now is waited for, the office byte too; its end is its end.
    all=$(lines_of "$program" 4)$'\n'
    for piece in '1 1' '10 20' '40 50' '209 300'; do
        read -r n ms <<<"$piece"
        both "$name: late, $n bytes each $ms ms" "$all" '' ./at_fault late "$program" days "$n" "$ms"
    done
    head -c 30 days >cut
    both "$name: late, and ends inside a record" "$("$program" <cut)"$'\n' '' ./at_fault late "$program" cut 25 50
    both "$name: late, and has no office byte" "$none" '' ./at_fault late "$program" empty 1 200

    # A read that a signal interrupts is made again.
    for n in 0 1 2 3 20 30 209; do
        both "$name: interrupted after $n bytes" "$all" '' ./at_fault stopped "$program" days "$n"
    done

    # An argument, of any kind: one sentence, and nothing is read or written.
    for word in --help -h days ''; do
        both "$name: argument '$word'" '' "$reads" "$program" "$word" <days
    done
    both "$name: two arguments" '' "$reads" "$program" 0 1 <days
    { "$program" --help 2>got_said && cat; } <days >got
    same "$name: an argument leaves the input unread" days got
done

# Each line is written before the program waits for the next record.
waited() {
    local line
    coproc server { timeout 60 "$1"; }
    { printf '\0' && report '\1'; } >&"${server[1]}"
    IFS= read -r -t 20 line <&"${server[0]}" && [ "$line" = '1 0 94 2' ]
}
holds 'a line before the next record' waited "$room"

# A write that fails ends the program at once, with one sentence on standard error.
endless() { printf '\0' && while report '\1'; do :; done 2>pieces.err; }
for program in "$room" "$trace"; do
    name=${program##*/}
    printf '%s' "$sentence" >expected
    for input in days empty; do
        timeout 20 "$program" <"$input" >/dev/full 2>got
        same "$name: full disk, $input" expected got
        timeout 20 "$program" <"$input" >&- 2>got
        same "$name: output closed, $input" expected got
        holds "$name: output and errors closed, $input" timeout 20 "$program" <"$input" >&- 2>&-
    done
    endless | timeout 60 "$program" >/dev/full 2>got
    holds "$name: full disk ends an endless input" [ "${PIPESTATUS[1]}" = 0 ]
    same "$name: full disk, endless input" expected got
done

# An output that is full for a while gets every line, and one that takes a part gets no byte of it twice.
{ printf '\0' && for i in $(seq 50000); do printf 'NE\0\0\0\0\0\0\0\0\0\0\0\0\0\0\0\0\0'; done; } >many
many=$(seq -f '%.0f 0 0 0' 50000)$'\n'
for program in "$room" "$trace"; do
    name=${program##*/}
    both "$name: the output is full for a while" "$many" '' ./at_fault full "$program" many 300
    both "$name: interrupted while it writes" "$many" '' ./at_fault held "$program" many
    (trap '' XFSZ && ulimit -f 3 && "$program" <many >part 2>got_said)
    head -c 3072 <<<"$many" >expected
    printf '%s' "$sentence" >expected_said
    same "$name: the output takes a part" expected part
    same "$name: the output takes a part, standard error" expected_said got_said
done

# 2,097,152 empty reports: nothing is written, and the lines are numbered to the end.
{ printf 'NE' && zeros 17; } >reports
for i in $(seq 21); do cat reports reports >more && mv more reports; done
{ printf '\0' && cat reports; } >long
seq -f '%.0f 0 0 0' 2097152 >expected
peak() { /usr/bin/time -o "$1" -f %M "$room" <"$2" >got; }
peak small days
peak large long
same 'an input of 39 megabytes' expected got
holds 'memory does not grow with the input' [ "$(cat large)" -le "$(($(cat small) + 1024))" ]

# Where nobody reads the output any more, a write fails as any other does: the signal for that goes unheard.
env --default-signal=PIPE "$room" <long 2>got_said | head -n 1 >got
status=${PIPESTATUS[0]}
holds 'a closed pipe, and an end' [ "$status" = 0 ]
printf 'The output cannot be written.\n' >expected_said
same 'a closed pipe' expected_said got_said
printf '1 0 0 0\n' >expected
same 'a closed pipe, its first line' expected got

rm -f reports long many part expected expected_said got got_said
echo "$passed passed, $failed failed"
[ "$failed" -eq 0 ]
