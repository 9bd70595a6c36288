#!/usr/bin/env bash
# The C headers beside the documents, and by themselves.
#   sizes      every #define of a number in include/room.h is one decimal number, and docs/LAYOUT.md has it; those that
#              are products or sums of others are so
#   places     the words of a desk and the room of a record are where docs/LAYOUT.md has them
#   compiling  room.h, room_words.h and both, as C and as C++ with all warnings as errors, with and without attributes
#   warnings   of every call: a NULL in place of each pointer, and an answer that nobody looks at, are warned of
#   order      room_read answers in the order of change request 10, and room_step in that of reading, then acting
#   numbers    each number that has landed has a name in the enum, a text, a row of docs/EMBEDDING.md that begins
#              '| N |', and a line of vectors/*.txt whose third field it is
#   words      tests/words.c, as C and as C++, under the sanitizers where there are such
# A request that brings a number or a size adds it here: landed, held. The last line is 'N passed, M failed'; the exit
# status is 0 only where M is 0.
set -u
cd "$(dirname "$(readlink -f "${BASH_SOURCE[0]}")")/.." || exit 1
export LC_ALL=C.UTF-8
shopt -s nullglob
landed=20
passed=0 failed=0
scratch=$(mktemp -d)
trap 'rm -rf "$scratch"' EXIT

# holds NAME COMMAND..: passed where the command ends with 0
holds() {
    local name=$1
    shift
    if "$@"; then
        passed=$((passed + 1))
    else
        failed=$((failed + 1))
        echo "FAILED: $name"
    fi
}

layout=$(tr '\n' ' ' <docs/LAYOUT.md | sed -E 's/  +/ /g')
words='zero one two three four five six seven eight nine ten eleven twelve thirteen fourteen fifteen sixteen'

# said PATTERN: the number that stands for N in docs/LAYOUT.md where the pattern does; a word up to sixteen is one too
said() {
    local number place=0 word
    [[ $layout =~ ${1/N/([0-9,]*[0-9]|[a-z]+)} ]] || return 0
    number=${BASH_REMATCH[1]//,/}
    for word in $words; do
        [ "$word" != "$number" ] || number=$place
        place=$((place + 1))
    done
    echo "$number"
}

# record NAME: the length of a record by the table
record() { sed -nE "s/^\| $1 \| ([0-9]+) \|.*/\1/p" docs/LAYOUT.md; }

declare -A held=(
    [ROOM_VERSION]=$(said 'version N \(`ROOM_VERSION`')
    [ROOM_ROOMS]=$(said 'There are N rooms')
    [ROOM_OFFICES]=$(said 'Of the N offices, office o')
    [ROOM_SEATS]=$(said 'is a N-bit number with bit s set')
    [ROOM_OFFICE_SEATS]=$(said 'office o has the N seats')
    [ROOM_LIMIT]=$(said 'L, the limit of every number, is N\.')
    [ROOM_REPORT_BYTES]=$(record report)
    [ROOM_PROPOSAL_BYTES]=$(record proposal)
    [ROOM_NOTICE_BYTES]=$(record 'start notice')
    [ROOM_VIEW_BYTES]=$(record view)
    [ROOM_SYNC_BYTES]=$(record sync)
    [ROOM_MARK_BYTES]=$(record 'high mark')
    [ROOM_OUTPUT_BYTES]=$(said 'notice and two proposals, N bytes')
    [ROOM_SHEET_RECORDS]=$(said 'at most N of them, so at most [0-9,]+ bytes')
    [ROOM_SHEET_BYTES]=$(said 'at most [0-9,]+ of them, so at most N bytes')
    [ROOM_FILE_MARKS]=$(said 'at most N marks, [0-9,]+ bytes')
    [ROOM_FILE_BYTES]=$(said 'at most [0-9,]+ marks, N bytes')
    [ROOM_MARK_MARGIN]=$(said 'of the largest plus N, or L')
    [ROOM_STATE_WORDS]=$(said 'N words \(`ROOM_STATE_WORDS`')
    [ROOM_TABLE_WORDS]=$(said 'as N words of 32 bits \(`ROOM_TABLE_WORDS`')
    [ROOM_DESK_WORDS]=$(said 'as N words of 32 bits \(`ROOM_DESK_WORDS`')
)
# These are no sizes: they stand above the offices.
held[ROOM_WAITS_MET]=${held[ROOM_OFFICES]} held[ROOM_WAITS_NOBODY]=$((held[ROOM_OFFICES] + 1))

# The header has every size that is held, once and as one number, and no other.
declare -A size=()
decimal() { [[ $1 =~ ^[1-9][0-9]*$ ]]; }
while read -r _ name value; do
    case $name in
    ROOM_H | ROOM_CALL | ROOM_NONNULL) continue ;;
    esac
    holds "$name is one decimal number" decimal "$value"
    holds "$name is $value, and docs/LAYOUT.md has ${held[$name]:-nothing}" [ "$value" = "${held[$name]:-no}" ]
    unset "held[$name]"
    decimal "$value" && size[$name]=$value
done < <(grep -E '^# *define ' include/room.h)
holds "sizes that include/room.h lacks: ${!held[*]}" [ "${#held[@]}" = 0 ]
holds 'no #define of a number in include/room_words.h' [ "$(grep -cE '^# *define .* [0-9]' include/room_words.h)" = 0 ]

# made NAME FACTOR TIMES [ADDEND]: a size is a product, and a summand; each is a name or a number
made() {
    local name addend=${4:-0}
    for name in "$@"; do decimal "$name" || decimal "${size[$name]:-}" || return 1; done
    [ "${size[$1]}" -eq $((${size[$2]:-$2} * ${size[$3]:-$3} + ${size[$addend]:-$addend})) ]
}
while read -r name factor times addend; do
    holds "$name is $factor x $times${addend:+ + $addend}" made "$name" "$factor" "$times" $addend
done <<'END'
ROOM_TABLE_WORDS ROOM_ROOMS ROOM_STATE_WORDS
ROOM_DESK_WORDS ROOM_ROOMS 3 1
ROOM_SEATS ROOM_OFFICES ROOM_OFFICE_SEATS
ROOM_OUTPUT_BYTES 2 ROOM_PROPOSAL_BYTES ROOM_NOTICE_BYTES
ROOM_SHEET_BYTES ROOM_SHEET_RECORDS ROOM_SYNC_BYTES
ROOM_FILE_BYTES ROOM_FILE_MARKS ROOM_MARK_BYTES
END

# The places that are no sizes: the words of a desk, in the document and in the header's comment; tests/words.c holds
# the code to them. And the room of the four records that have one.
desk_word() { sed -nE "/^# The words of a desk/,\$s/^\| ([0-9]( \+ 3r)?) \| $1.*/\1/p" docs/LAYOUT.md; }
desk_comment() { sed -nE "s/^ \*   ([0-9]( \+ 3r)?) +(in room r: +)?$1.*/\1/p" include/room.h; }
desk_place() { [ "$(desk_word "$2"), $(desk_comment "$3")" = "$1, $1" ]; }
holds 'the seat of a desk' desk_place 0 'the seat, 0 to 63' 'the seat, 0 to 63'
holds 'the start number of a desk' desk_place '1 + 3r' 'the last start number' 'the last start number'
holds 'the view number of a desk' desk_place '2 + 3r' 'the last view number' 'the last view number'
holds 'whether a change is open at a desk' desk_place '3 + 3r' 'whether a change is open' '0 where no change is open'
holds 'the room is byte 2 of four records' [ "$(grep -cE '^\| \| \| 2 \| 1 \| [^|]*\broom\b' docs/LAYOUT.md)" = 4 ]

# The names that are no sizes: the kinds of a proposal, the marks.
kinds=$(sed -nE 's/^enum room_proposal_kind \{ ROOM_FAST = ([0-9]), ROOM_SLOW = ([0-9]) \};/\1 fast, \2 slow/p' \
    include/room_words.h)
holds 'ROOM_FAST and ROOM_SLOW' grep -qF "kind: ${kinds:-none} |" docs/LAYOUT.md
marks=$(sed -nE 's/^\|.*\| mark `..`, (..) (..) \|$/0x\1\2/p' docs/LAYOUT.md | sort)
holds 'the marks' [ "$(sed -nE 's/^ *case (0x....):.*/\1/p' include/room_words.h | sort)" = "$marks" ]

# compiles LANGUAGE STANDARD FLAGS.. <SOURCE: the compiler has nothing to say
strict='-Wall -Wextra -Wpedantic -Wconversion -Wshadow -Werror'
compiles() {
    local language=$1 standard=$2 compiler=gcc
    shift 2
    [ "$language" = c ] || compiler=g++
    "$compiler" -x "$language" "-std=$standard" $strict "$@" -Iinclude -c - -o "$scratch/object.o"
}
for standard in c99 c11 c17 c++11 c++17; do
    language=c
    [[ $standard != c++* ]] || language=c++
    for headers in room.h room_words.h 'room.h room_words.h' 'room_words.h room.h'; do
        printf '#include "%s"\n' $headers >"$scratch/source"
        holds "$headers as $standard" compiles "$language" "$standard" <"$scratch/source"
        holds "$headers as $standard, without attributes" \
            compiles "$language" "$standard" -DROOM_NO_ATTRIBUTES <"$scratch/source"
    done
done

# Every call is declared with ROOM_CALL. Of each a line that lets the answer fall, and a line for each pointer with
# NULL in its place: the compiler warns of every one, and of nothing with a pointer in each place.
calls=$(tr '\n' ' ' <include/room.h | sed -E 's/  +/ /g' |
    grep -oE '(ROOM_CALL )?[a-z_0-9]+ room_[a-z_]+\([a-z_0-9 ,*]*\);')
holds 'every call of include/room.h is declared with ROOM_CALL' [ "$(grep -vc '^ROOM_CALL ' <<<"$calls")" = 0 ]
cat >"$scratch/right" <<'C'
#include "room.h"
extern uint8_t b[];
extern uint32_t w[];
extern uint64_t u[];
void f(void);
void f(void) {
C
cp "$scratch/right" "$scratch/unused" && cp "$scratch/right" "$scratch/null"
pointers=0 count=0
while IFS= read -r call; do
    name=${call%%(*} name=${name##* } given=${call#*(} given=${given%);}
    count=$((count + 1)) arguments=() at=()
    IFS=, read -ra parameters <<<"$given"
    for parameter in "${parameters[@]}"; do
        case $parameter in
        *uint8_t\ \**) arguments+=(b) && at+=(${#arguments[@]}) ;;
        *uint32_t\ \**) arguments+=(w) && at+=(${#arguments[@]}) ;;
        *uint64_t\ \**) arguments+=(u) && at+=(${#arguments[@]}) ;;
        *) arguments+=(0) ;;
        esac
    done
    row=$(IFS=, && echo "${arguments[*]}")
    echo "    { volatile uint64_t a = $name($row); (void)a; }" >>"$scratch/right"
    echo "    $name($row);" >>"$scratch/unused"
    for place in ${at[@]+"${at[@]}"}; do
        pointers=$((pointers + 1)) nulls=("${arguments[@]}") && nulls[place - 1]=NULL
        row=$(IFS=, && echo "${nulls[*]}")
        echo "    { volatile uint64_t a = $name($row); (void)a; }" >>"$scratch/null"
    done
done <<<"$calls"
echo '}' | tee -a "$scratch/right" "$scratch/unused" >>"$scratch/null"

# warned FILE WARNING: how many lines of it the compiler warns of in this way, each as an error
warned() { compiles c c11 <"$1" 2>&1 | sed -nE "s/^<stdin>:([0-9]+):.*\[-Werror=$2\].*/\1/p" | sort -u | wc -l; }
holds 'some calls are found' [ "$count" -ge 16 ]
holds 'every call with what it asks for' compiles c c11 <"$scratch/right"
holds "an answer that nobody looks at, $count calls" [ "$(warned "$scratch/unused" unused-result)" = "$count" ]
holds "NULL for each of $pointers pointers" [ "$(warned "$scratch/null" nonnull)" = "$pointers" ]
refuses() { ! compiles c c11 2>"$scratch/refused"; }
holds 'such a program is refused' refuses <"$scratch/unused"
holds 'and the other' refuses <"$scratch/null"

# answers CALL: the numbers that stand at the head of a line in the comment of a call, in their order
answers() {
    awk -v call=" $1(" '/^\/\*/ { row = "" }
        match($0, /^ \* +(answer % 256 +)?[0-9]+  +[^ ]/) { sub(/^ \* +(answer % 256 +)?/, ""); row = row $1 " " }
        /^ROOM_CALL / && index($0, call) { print row }' include/room.h
}
reading='1 4 5 20 6 7 8 9 10 19 '
holds 'the order of room_read' [ "$(answers room_read)" = "${reading}0 " ]
holds 'the order of room_step' [ "$(answers room_step)" = "${reading}2 3 6 9 11 12 13 0 " ]

# The numbers.
vectors=(vectors/*.txt)
for number in $(seq 1 "$landed"); do
    name=$(sed -nE "s/^    (ROOM_REFUSED_[A-Z_]+) = $number,? +\/\* .+ \*\/$/\1/p" include/room.h)
    holds "$number has one name in enum room_refusal" [ "$(wc -w <<<"$name")" = 1 ]
    holds "$number has a text" grep -qE "^ *case ${name:-none}: return \".+\";$" include/room_words.h
    holds "$number has a row in docs/EMBEDDING.md" grep -qsE "^\| $number \|" docs/EMBEDDING.md
    holds "$number has a line in vectors" \
        [ "$(cat /dev/null "${vectors[@]}" | awk -v n="$number" '!/^#/ && $3 == n { print 1; exit }')" = 1 ]
done
named=$(sed -nE '/^enum room_refusal/,/^}/s/^    ROOM_[A-Z_]+ = ([0-9]+).*/\1/p' include/room.h | sort -n)
holds "enum room_refusal has 0 to $landed and no other" [ "$named" = "$(seq 0 "$landed")" ]

# tally_words COMMAND..: tests/words.c, which counts for itself
tally_words() {
    local last
    "$@" tests/words.c -o "$scratch/words" && "$scratch/words" "$landed" >"$scratch/said" 2>&1
    last=$(tail -n 1 "$scratch/said")
    grep -vE "^outputs: | passed, " "$scratch/said" | head -n 20
    if [[ $last =~ ^([0-9]+)\ passed,\ ([0-9]+)\ failed$ ]]; then
        passed=$((passed + BASH_REMATCH[1])) failed=$((failed + BASH_REMATCH[2]))
    else
        failed=$((failed + 1)) && echo "FAILED: $*"
    fi
}
sanitize='-fsanitize=address,undefined -fno-sanitize-recover=all'
echo 'int main(void) { return 0; }' >"$scratch/none.c"
gcc $sanitize "$scratch/none.c" -o "$scratch/none" 2>"$scratch/refused" && "$scratch/none" || {
    echo 'no sanitizers here: tests/words.c runs without'
    sanitize=
}
tally_words gcc -std=c99 -g $strict $sanitize -Iinclude
tally_words g++ -x c++ -std=c++11 -g $strict $sanitize -Iinclude

echo "$passed passed, $failed failed"
[ "$failed" -eq 0 ]
