# Part of tests/audit/run: what keeps audit from reading or writing is one line on standard error, and nothing on standard output.
cell=examples/trail-believed/cell
trail=examples/trail-believed/trail
final=examples/trail-believed/final

# complains NAME LINE COMMAND..
complains() {
    local name=$1 line=$2
    shift 2
    "$@" > "$scratch/out" 2> "$scratch/err"
    [ ! -s "$scratch/out" ] && [ "$(cat "$scratch/err")" = "$line" ]
    count $? "$name" "wrote: $(head -c 200 "$scratch/err")"
}

# ---- arguments

usage="usage: audit [CELL TRAIL FINAL]   (without paths: the files cell, trail and final of the working folder)"
complains "one argument" "$usage" "$audit" "$cell"
complains "two arguments" "$usage" "$audit" "$cell" "$trail"
complains "four arguments" "$usage" "$audit" "$cell" "$trail" "$final" "$final"
complains "an empty path for the cell" "$usage" "$audit" "" "$trail" "$final"
complains "an empty path for the trail" "$usage" "$audit" "$cell" "" "$final"
complains "an empty path for the final listing" "$usage" "$audit" "$cell" "$trail" ""
slashes=$(printf '/%.0s' {1..4200})
complains "a cell path of 4,200 bytes" "audit: cell: File name too long" "$audit" "$slashes" "$trail" "$final"
complains "a trail path of 4,200 bytes" "audit: trail: File name too long" "$audit" "$cell" "$slashes" "$final"
complains "a final path of 4,200 bytes" "audit: final: File name too long" "$audit" "$cell" "$trail" "$slashes"

# ---- files

# absent files are not empty ones: nothing is said of what was not read
none=$scratch/none
complains "no cell file" "audit: $none: No such file or directory" "$audit" "$none" "$trail" "$final"
complains "no trail" "audit: $none: No such file or directory" "$audit" "$cell" "$none" "$final"
complains "no final listing" "audit: $none: No such file or directory" "$audit" "$cell" "$trail" "$none"
complains "no files in its folder" "audit: cell: No such file or directory" env -C "$scratch" "$audit"
mkdir "$scratch/folder"
cp "$cell" "$trail" "$scratch/folder"
complains "no final listing in its folder" "audit: final: No such file or directory" env -C "$scratch/folder" "$audit"
complains "a folder as the cell" "audit: examples: Is a directory" "$audit" examples "$trail" "$final"
complains "a folder as the trail" "audit: examples: Is a directory" "$audit" "$cell" examples "$final"
complains "a folder as the final listing" "audit: examples: Is a directory" "$audit" "$cell" "$trail" examples
complains "a path through a file" "audit: $cell/x: Not a directory" "$audit" "$cell" "$cell/x" "$final"

# a file that fills its room may go on
printf x >> "$scratch/longest-odd"
complains "a trail of 2,097,152 bytes" "audit: $scratch/longest-odd: longer than 2097151 bytes" "$audit" "$cell" "$scratch/longest-odd" "$final"
printf x >> "$scratch/longest-odd"
complains "a trail of 2,097,153 bytes" "audit: $scratch/longest-odd: longer than 2097151 bytes" "$audit" "$cell" "$scratch/longest-odd" "$final"
cp "$scratch/longest-odd" "$scratch/folder/trail"
complains "a long trail in its folder" "audit: trail: longer than 2097151 bytes" env -C "$scratch/folder" "$audit"
printf x >> "$scratch/final"
complains "a final listing of 65,536 bytes" "audit: $scratch/final: longer than 65535 bytes" "$audit" "$cell" "$trail" "$scratch/final"
printf x >> "$scratch/final"
complains "a final listing of 65,537 bytes" "audit: $scratch/final: longer than 65535 bytes" "$audit" "$cell" "$trail" "$scratch/final"

cp "$audit" "$scratch/folder"
chmod 000 "$scratch/folder/trail"
as_user=()
[ "$(id -u)" -ne 0 ] || as_user=(setpriv --reuid 65534 --clear-groups)
complains "a trail that may not be read" "audit: trail: Permission denied" env -C "$scratch/folder" "${as_user[@]}" ./audit

# a read that fails after ten bytes; a later one would go on
cc -shared -fPIC -o "$scratch/read_fails.so" tests/walk/read_fails.c
complains "a read that fails" "audit: $cell: Input/output error" env LD_PRELOAD="$scratch/read_fails.so" "$audit" "$cell" "$trail" "$final"

# ---- standard output

complains "a full disk" "audit: standard output: No space left on device" bash -c '"$@" > /dev/full' - "$audit" "$cell" "$trail" "$final"
complains "a closed output" "audit: standard output: Bad file descriptor" bash -c '"$@" >&-' - "$audit" "$cell" "$trail" "$final"

# ---- the script ./audit, beside a program and an `rt` that only say that they ran

top=$scratch/top
mkdir -p "$top/crates/audit/out" "$top/tools" "$top/target/bin" "$top/bin" "$top/shift"
touch "$top/crates.txt"
cp audit "$top"
printf '#!/bin/sh\necho ran "$@"\n' > "$top/target/bin/audit"
printf '#!/bin/sh\necho checked "$@"\n' > "$top/bin/rt"
chmod +x "$top/bin/rt" "$top/target/bin/audit"
cp tools/build "$top/tools"
cp "$top/target/bin/audit" "$top/crates/audit/out"

# script NAME STATUS WROTE ARGUMENT..: what ./audit writes to both outputs, and its status
script() {
    local name=$1 status=$2 wrote=$3 got
    shift 3
    got=$(cd "$top" && PATH="$top/bin:$PATH" ./audit "$@" 2>&1)
    [ $? -eq "$status" ] && [ "$got" = "$wrote" ]
    count $? "$name" "wrote: $got"
}

ran="ran shift/cell shift/trail shift/final"
script "./audit without a folder" 2 "usage: ./audit DIR   (a folder with the files cell, trail and final, such as examples/trail-believed)"
touch -d "3 minutes ago" "$top/crates" "$top/crates/audit" "$top/crates.txt"
script "./audit with a program that is newer" 0 "$ran" shift
touch -d "2 minutes ago" "$top/target/bin/audit"
touch -d "1 minute ago" "$top/crates"
script "./audit with a newer source" 0 "proving and building audit; this takes a few minutes
checked check audit
$ran" shift
script "./audit once it is built" 0 "$ran" shift

# ---- the script over the program itself

cp "$audit" "$top/target/bin/audit"
judge "./audit on a believed trail" examples/trail-believed/finding < <("$top/audit" examples/trail-believed)
judge "./audit on a denied trail" examples/trail-denied/finding < <("$top/audit" examples/trail-denied)
complains "./audit on a folder without a trail" "audit: examples/worked/trail: No such file or directory" "$top/audit" examples/worked
