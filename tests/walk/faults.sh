# Part of tests/walk/run: what keeps walk from reading or writing is one line on standard error, and nothing on standard output.
scratch=$(mktemp -d)
trap 'rm -rf "$scratch"' EXIT
chmod 755 "$scratch"
cell=examples/worked/cell
order=examples/worked/order

# complains NAME LINE COMMAND..
complains() {
    local name=$1 line=$2
    shift 2
    "$@" > "$scratch/out" 2> "$scratch/err"
    [ ! -s "$scratch/out" ] && [ "$(cat "$scratch/err")" = "$line" ]
    count $? "$name" "wrote: $(head -c 200 "$scratch/err")"
}

# ---- arguments

usage="usage: walk [CELL ORDER | --text TEXT ORDER]   (without paths: the files cell and order of the working folder)"
complains "one argument" "$usage" "$walk" "$cell"
complains "three arguments" "$usage" "$walk" "$cell" "$order" "$order"
complains "an empty path" "$usage" "$walk" "" "$order"
typed=examples/typed-layout/cell.txt
complains "another word for the option" "$usage" "$walk" --texts "$typed" "$order"
complains "a shorter word for the option" "$usage" "$walk" --tex "$typed" "$order"
complains "the option and one path" "$usage" "$walk" --text "$typed"
complains "the option last" "$usage" "$walk" "$typed" "$order" --text
complains "the option and three paths" "$usage" "$walk" --text "$typed" "$order" "$order"
complains "an empty path for the text" "$usage" "$walk" --text "" "$order"

# a path of 4,095 bytes is the longest that the system takes
slashes=$(printf '/%.0s' {1..4200})
judge "a path of 4,095 bytes" examples/worked/expected < <(cd examples/worked && "$walk" ".${slashes:0:4090}cell" order)
complains "a path of 4,096 bytes" "walk: .${slashes:0:4091}cell: File name too long" "$walk" ".${slashes:0:4091}cell" "$order"
complains "a cell path of 4,097 bytes" "walk: cell: File name too long" "$walk" ".${slashes:0:4092}cell" "$order"
complains "an order path of 4,200 bytes" "walk: order: File name too long" "$walk" "$cell" "$slashes"
complains "a text path of 4,200 bytes" "walk: text: File name too long" "$walk" --text "$slashes" "$order"

# ---- files

complains "a folder as the cell" "walk: examples: Is a directory" "$walk" examples "$order"
complains "a folder as the order" "walk: examples: Is a directory" "$walk" "$cell" examples
complains "a folder as the text" "walk: examples: Is a directory" "$walk" --text examples "$order"
head -c 65536 /dev/zero > "$scratch/long.txt"
complains "a text of 65,536 bytes" "walk: $scratch/long.txt: longer than 65535 bytes" "$walk" --text "$scratch/long.txt" "$order"
printf x >> "$scratch/long.txt"
complains "a text of 65,537 bytes" "walk: $scratch/long.txt: longer than 65535 bytes" "$walk" --text "$scratch/long.txt" "$order"
complains "a path through a file" "walk: $cell/x: Not a directory" "$walk" "$cell/x" "$order"

cp "$walk" "$cell" "$order" "$scratch"
chmod 000 "$scratch/order"
as_user=()
[ "$(id -u)" -ne 0 ] || as_user=(setpriv --reuid 65534 --clear-groups)
complains "an order that may not be read" "walk: order: Permission denied" env -C "$scratch" "${as_user[@]}" ./walk

# a read that fails after ten bytes; a later one would go on
cc -shared -fPIC -o "$scratch/read_fails.so" tests/walk/read_fails.c
complains "a read that fails" "walk: $cell: Input/output error" env LD_PRELOAD="$scratch/read_fails.so" "$walk" "$cell" "$order"

# ---- standard output

complains "a full disk" "walk: standard output: No space left on device" bash -c '"$@" > /dev/full' - "$walk" "$cell" "$order"
complains "a closed output" "walk: standard output: Bad file descriptor" bash -c '"$@" >&-' - "$walk" "$cell" "$order"
long=tests/walk/longest-report
complains "a reader that stops" "walk: standard output: Broken pipe" bash -c 'trap "" PIPE; "$@" | :' - "$walk" "$long/cell" "$long/order"

# ---- the script ./walk, beside a program and an `rt` that only say that they ran

top=$scratch/top
mkdir -p "$top/crates/walk/out" "$top/tools" "$top/target/bin" "$top/bin" "$top/empty" "$top/full" "$top/typed"
touch "$top/crates.txt" "$top/full/cell" "$top/full/cell.txt" "$top/typed/cell.txt"
cp walk "$top"
printf '#!/bin/sh\necho ran "$@"\n' > "$top/target/bin/walk"
printf '#!/bin/sh\necho checked "$@"\n' > "$top/bin/rt"
chmod +x "$top/bin/rt" "$top/target/bin/walk"
cp tools/build "$top/tools"
cp "$top/target/bin/walk" "$top/crates/walk/out"

# script NAME STATUS WROTE ARGUMENT..: what ./walk writes to both outputs, and its status
script() {
    local name=$1 status=$2 wrote=$3 got
    shift 3
    got=$(cd "$top" && PATH="$top/bin:$PATH" ./walk "$@" 2>&1)
    [ $? -eq "$status" ] && [ "$got" = "$wrote" ]
    count $? "$name" "wrote: $got"
}

ran="ran full/cell full/order"
built="proving and building walk; this takes a few minutes
checked check walk
$ran"
script "./walk without a folder" 2 "usage: ./walk DIR   (a folder with the files cell or cell.txt, and order, such as examples/worked; an absent order is an empty one)"
script "./walk on a folder without a cell" 2 "walk: there is no file empty/cell and no file empty/cell.txt" empty
touch -d "3 minutes ago" "$top/crates" "$top/crates/walk" "$top/crates.txt"
script "./walk with a program that is newer" 0 "$ran" full
script "./walk on a folder with a typed layout" 0 "ran --text typed/cell.txt typed/order" typed
touch -d "2 minutes ago" "$top/target/bin/walk"
touch -d "1 minute ago" "$top/crates"
script "./walk with a newer source" 0 "$built" full
script "./walk once it is built" 0 "$ran" full

# ---- the script over the program itself

cp "$walk" "$top/target/bin/walk"
judge "./walk on an example" examples/worked/expected < <("$top/walk" examples/worked)
judge "./walk on a typed layout" examples/typed-layout/expected < <("$top/walk" examples/typed-layout)
