#!/bin/sh
# Runs the example host, with and without sanitizers, on the worked example and on absent, empty, refused and odd files, on typed layouts and
# on files that cannot be read; then the other tests.
set -eu
folder=$(mktemp -d)
trap 'rm -rf "$folder"' EXIT
passed=0

# case_of NAME CELL ORDER EXPECTED: the files as printf writes them ('-' for an absent file), and what must be printed.
case_of() {
    rm -f "$folder/cell" "$folder/order"
    [ "$2" = - ] || printf "$2" > "$folder/cell"
    [ "$3" = - ] || printf "$3" > "$folder/order"
    printf "$4" > "$folder/expected"
    for program in target/walk target/walk-sanitized; do
        "$program" "$folder/cell" "$folder/order" > "$folder/printed"
        if ! cmp -s "$folder/expected" "$folder/printed"; then
            echo "$1: $program printed"
            cat "$folder/printed"
            exit 1
        fi
        passed=$((passed + 1))
    done
}

# typed_of NAME TEXT ORDER EXPECTED: the same of a layout that was typed.
typed_of() {
    rm -f "$folder/text" "$folder/order"
    [ "$2" = - ] || printf "$2" > "$folder/text"
    [ "$3" = - ] || printf "$3" > "$folder/order"
    printf "$4" > "$folder/expected"
    for program in target/walk target/walk-sanitized; do
        "$program" --text "$folder/text" "$folder/order" > "$folder/printed"
        if ! cmp -s "$folder/expected" "$folder/printed"; then
            echo "$1: $program printed"
            cat "$folder/printed"
            exit 1
        fi
        passed=$((passed + 1))
    done
}

cell='\001\001\000\007\000\001\002\000\011\000\002\000\001\003\000\001\011\000\002\001\002\003\001\002\007\000\004'
order='\000\377\001\377\000\377\001\377\000\377\000\377\001\377\001\377\000\377\000\377\000\377\000\377\001\377'
lines='0 looked 0\n1 looked 0\n0 took 0\n1 held 0\n0 took 0\n0 left 0\n1 took 0\n1 slept 0\n0 took 0\n0 took 0\n0 came 1\n0 done 0\n1 looked 0\n'
nobody=$(printf '%s' "$lines" | sed 's/\([01]\) [a-z]* [01]/\1 refused 11/g')

case_of 'worked example' "$cell" "$order" "start 7[enter 9] | 9[exit 7]\n${lines}end 9[exit 7 | 7[]]\n"
case_of 'odd last byte' "$cell" "$order"'\000' "start 7[enter 9] | 9[exit 7]\n${lines}end 9[exit 7 | 7[]]\n"
case_of 'no such agent' "$cell" '\100\000\002\000' 'start 7[enter 9] | 9[exit 7]\n64 refused 11\n2 refused 11\nend 7[enter 9] | 9[exit 7]\n'
case_of 'absent order' '\004' - 'start 0\nend 0\n'
case_of 'absent cell' - "$order" "start 0\n${nobody}end 0\n"
case_of 'empty cell' '' "$order" "start 0\n${nobody}end 0\n"
case_of 'absent files' - - 'start 0\nend 0\n'
case_of 'empty files' '' '' 'start 0\nend 0\n'
case_of 'after the end' '\004\004' "$order" 'refused 9 1\n'
case_of 'no end' '\001\001\000\007\000' "$order" 'refused 1 5\n'
case_of 'cut body' '\001' "$order" 'refused 1 0\n'
case_of 'place 64' '\001\100\100\007\000\004' "$order" 'refused 3 0\n'
case_of 'parent 64' '\001\001\100\007\000\004' "$order" 'refused 13 0\n'
case_of 'home 64' '\002\000\000\002\001\100\004' "$order" 'refused 13 3\n'
case_of 'agent 64' '\002\100\100\004' "$order" 'refused 14 0\n'
case_of 'touches' '\001\001\000\007\000\005\001\001\000\000\000\005\000\377\377\377\377\004' - 'start 7[]\nend 7[]\n'
case_of 'touches of place 64' '\005\100\001\000\000\000\004' "$order" 'refused 3 0\n'
case_of 'touches given twice' '\005\000\001\000\000\000\005\000\001\000\000\000\004' "$order" 'refused 4 6\n'
case_of 'touches of no place' '\005\001\001\000\000\000\004' "$order" 'refused 5 0\n'
case_of 'first in the file' \
    '\001\001\000\007\000\001\003\000\011\000\001\002\000\011\000\001\004\003\006\000\002\000\001\003\000\001\011\000\004' \
    '\000\377\000\377\000\377\000\377' \
    'start 7[enter 9] | 9[6[]] | 9[]\n0 looked 0\n0 took 0\n0 took 0\n0 left 0\nend 9[6[] | 7[]] | 9[]\n'
case_of 'keys' '\006\001\000\011\000\005\000\006\000\000\000\001\002\000\007\000\002\000\002\003\000\001\005\000\003\000\003\011\000\004' \
    '\000\377\000\377\000\377\000\377' 'start 7[enter 5.open 9] | 9/5/6/0[]\n0 looked 0\n0 took 0\n0 took 0\n0 left 0\nend 9/5/6/0[7[open 9]]\n'
case_of 'keys of place 64' '\006\100\100\007\000\007\000\007\000\007\000\004' "$order" 'refused 3 0\n'
case_of 'keys cut' '\006\001\000\007\000\007\000\007\000\007' "$order" 'refused 1 0\n'
case_of 'keys and name 0' '\006\001\000\000\000\007\000\007\000\007\000\004' "$order" 'refused 6 0\n'
case_of 'by text and not by number' '\001\001\000\011\000\001\002\001\007\000\002\000\002\003\000\002\011\000\004' \
    '\000\377\000\377\000\377\000\377' 'start 9[7[exit 9]]\n0 looked 0\n0 took 0\n0 took 0\n0 left 0\nend 7[] | 9[]\n'
case_of 'put' '\002\000\000\003\000\004\011\000\004' '\000\377\000\001\000\000\000\377' \
    'start release 9\n0 looked 0\n0 took 0\n0 put 0\n0 done 0\nend 9[]\n'
case_of 'action kind 5' '\002\000\000\003\000\005\000\000\004' "$order" 'refused 7 3\n'
case_of 'release 0' '\002\000\000\003\000\004\000\000\004' "$order" 'refused 6 3\n'
case_of 'action of agent 64' '\002\000\000\003\100\001\007\000\004' "$order" 'refused 14 3\n'

typed='7[enter 9] | 9[exit 7]'
for end in '' '\n' '\r\n'; do
    typed_of 'typed worked example' "$typed$end" "$order" "start $typed\n${lines}end 9[exit 7 | 7[]]\n"
done
typed_of 'typed in another order' '9[] | 7/7/7/7[] | open 9' - 'start open 9 | 7[] | 9[]\nend open 9 | 7[] | 9[]\n'
typed_of 'typed release' 'release 9.open 9\n' '\000\377\000\377\000\377\000\377' \
    'start release 9.open 9\n0 looked 0\n0 took 0\n0 put 0\n0 looked 0\nend open 9 | 9[]\n'
typed_of 'typed bare floor' '0\n' "$order" "start 0\n${nobody}end 0\n"
typed_of 'absent text' - "$order" 'refused 16 0\n\n^\n'
typed_of 'empty text' '' "$order" 'refused 16 0\n\n^\n'
typed_of 'empty line' '\r\n' "$order" 'refused 16 0\n\n^\n'
typed_of 'leading zero' '07[]\n' "$order" 'refused 16 1\n07[]\n ^\n'
typed_of '0 in a place' '7[0]' "$order" 'refused 16 2\n7[0]\n  ^\n'
typed_of 'too large a name' '65536[]' "$order" 'refused 16 4\n65536[]\n    ^\n'
typed_of 'action number 0' 'enter 0' "$order" 'refused 16 6\nenter 0\n      ^\n'
typed_of 'one key' '7/0[]' "$order" 'refused 16 3\n7/0[]\n   ^\n'
typed_of 'a text that stops early' '7[7[]\n' "$order" 'refused 16 5\n7[7[]\n     ^\n'
typed_of 'two lines' '7[]\n7[]\n' "$order" 'refused 16 3\n7[]?7[]\n   ^\n'
typed_of 'what cannot be printed' '7[\377\177]' "$order" 'refused 16 2\n7[??]\n  ^\n'
ten='1[2[3[4[5[' # 10 bytes
forty="$ten$ten$ten$ten"
under='                                        ^' # after 40 spaces
typed_of 'a text of 72 bytes' "$forty $ten$ten$ten]" "$order" "refused 16 40\n$forty $ten$ten$ten]\n$under\n"
typed_of 'a long text' "$ten$forty $forty$forty" "$order" "refused 16 50\n$forty ${ten}${ten}${ten}1\n$under\n"
typed_of 'a long text that stops early' "$ten$forty$forty" "$order" "refused 16 90\n$forty\n$under\n"
many=$(awk 'BEGIN { for (i = 0; i < 64; i++) printf "7[%s", i < 63 ? "] | " : "]" }')
typed_of 'too many places' "$many" "$order" "refused 17 $((64 * 6 - 3))\n$(printf '%s' "$many" | tail -c 40)\n$under\n"

# with a gripper each step is asked for and committed; a line says where the gripper was parked between the two
printf "$cell" > "$folder/cell"
printf "$order"'\100\000' > "$folder/order"
parked=$(printf '%s' "$lines" | sed 's/0 left 0/gripper parked: place 1 will leave for place 2\\n0 left 0/')
printf "start 7[enter 9] | 9[exit 7]\n${parked}64 refused 11\nend 9[exit 7 | 7[]]\n" > "$folder/expected"
printf 'open 7 | 7[8[6[exit 8]]]' > "$folder/text"
printf '\000\377\000\377\000\377\000\377\001\377\001\377\001\377\001\377' > "$folder/steps"
printf 'start open 7 | 7[8[6[exit 8]]]\n0 looked 0\n0 took 0\n0 took 0\ngripper parked: place 1 will be opened\n0 opened 0\n' > "$folder/opened"
printf '1 looked 0\n1 took 0\n1 took 0\ngripper parked: place 3 will leave\n1 left 0\nend 6[] | 8[]\n' >> "$folder/opened"
for program in target/walk target/walk-sanitized; do
    "$program" --gripper "$folder/cell" "$folder/order" | cmp - "$folder/expected" || exit 1
    "$program" --gripper --text "$folder/text" "$folder/steps" | cmp - "$folder/opened" || exit 1
    passed=$((passed + 2))
done

# a typed text that cannot be read, or is too long to be read whole, is not run
awk 'BEGIN { for (i = 0; i < 65536; i++) printf "[" }' > "$folder/long"
for program in target/walk target/walk-sanitized; do
    for path in "$folder" "$folder/long"; do
        status=0
        "$program" --text "$path" "$folder/order" > "$folder/printed" 2> "$folder/said" || status=$?
        if [ "$status" -ne 1 ] || [ -s "$folder/printed" ] || [ ! -s "$folder/said" ]; then
            echo "$program --text $path ended with $status"
            exit 1
        fi
        passed=$((passed + 1))
    done
done

# a file that is there and cannot be read does not pass for an empty one: a folder, and a path through a file
printf "$cell" > "$folder/cell"
printf "$order" > "$folder/order"
for program in target/walk target/walk-sanitized; do
    for path in "$folder" "$folder/cell/x"; do
        status=0
        "$program" "$path" "$folder/order" > "$folder/printed" 2> "$folder/said" || status=$?
        if [ "$status" -ne 1 ] || [ -s "$folder/printed" ] || [ ! -s "$folder/said" ]; then
            echo "$program on $path ended with $status"
            exit 1
        fi
        passed=$((passed + 1))
    done
done

# a library that does not fit: the host says so and makes no call
status=0
target/walk-other "$folder/cell" "$folder/order" > "$folder/printed" 2> "$folder/said" || status=$?
if [ "$status" -ne 1 ] || [ -s "$folder/printed" ]; then
    echo "target/walk-other ended with $status"
    exit 1
fi
passed=$((passed + 1))

for program in calls calls-sanitized ask ask-sanitized audit audit-sanitized ceiling ceiling-sanitized served served-sanitized keys keys-sanitized layouts layouts-sanitized release release-sanitized texts texts-sanitized where where-sanitized header; do
    printf '%s: ' "$program"
    "target/$program"
    passed=$((passed + 1))
done

# the card drives typed layouts to rest; it is interrupted where someone is woken, and stops where all rest or a step is refused
# card_of NAME TEXT STATUS EXPECTED
card_of() {
    printf "$4" > "$folder/expected"
    for program in target/window target/window-sanitized; do
        status=0
        "$program" "$2" > "$folder/printed" || status=$?
        if [ "$status" -ne "$3" ] || ! cmp -s "$folder/expected" "$folder/printed"; then
            echo "$1: $program ended with $status and printed"
            cat "$folder/printed"
            exit 1
        fi
        passed=$((passed + 1))
    done
}
before='agent 0 looked\nagent 1 looked\nagent 0 took\nagent 1 held\nagent 0 took\nagent 1 held\nagent 0 left\nagent 1 took\nagent 0 took\nagent 1 slept\nagent 0 took\nagent 1 asleep\n'
since='agent 0 came\nline raised: 1 woken\nagent 1 looked\nagent 0 done\nagent 1 took\nagent 0 done\nagent 1 slept\nline raised: all rest\nend 9[exit 7 | 7[]]\n'
card_of 'the worked example by a card' "$typed" 0 "$before$since"
card_of 'a release by a card' 'release 9' 0 'agent 0 looked\nagent 0 took\nagent 0 put\nline raised: all rest\nend 9[]\n'
card_of 'no agents' '7[]' 0 'agent 0 refused 11\nline raised: no such agent\nend 7[]\n'
card_of 'a text that a card cannot read' '7[0]' 1 '7[0]\n  ^ not a text of the listing'"'"'s language\n'
for program in command command-sanitized; do
    printf '%s: ' "$program"
    "target/$program"
    passed=$((passed + 1))
done

target/stack
echo "$((passed + 1)) passed, 0 failed"
