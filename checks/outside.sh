#!/bin/bash
# Runs the program where something outside is missing or fails, and compares its trace and its status.
#     checks/outside.sh PROGRAM
program=$(realpath "$1") || exit 1
folder=$(mktemp -d) || exit 1
trap 'rm -rf "$folder"' EXIT
cd "$folder" || exit 1
failed=0

# expect STATUS TRACE WORD..: the program's status and standard output on these words
expect() {
    local status=$1 trace=$2 shown
    shift 2
    shown=$("$program" "$@")
    local got=$?
    if [ "$got" != "$status" ] || [ "$shown" != "$trace" ]; then
        echo "outside: $*: status $got, trace '$shown', wanted $status, '$trace'"
        failed=1
    fi
}

# status STATUS: what the last command answered
status() {
    local got=$?
    if [ "$got" != "$1" ]; then
        echo "outside: status $got, wanted $1: $2"
        failed=1
    fi
}

rest=(--top top --until 0 --workers 1)
printf 'module top; nettype int N; N a; endmodule' > a.sv
: > empty.sv
printf 'module top; nettype int N; N \303\251; endmodule' > high.sv
mkdir folder closed

expect 0 $'#0\ntop.a = 0\nend 0' run a.sv "${rest[@]}"
[ "$(cat top.wit)" = $'nettype-witness 1\nr 0 1\nend' ]
status 0 "the witness of a run"
rm top.wit
expect 3 'read fault missing.sv' run missing.sv "${rest[@]}"
expect 3 'read fault folder' run folder "${rest[@]}"
expect 12 'not yet' run empty.sv "${rest[@]}"
expect 12 'not yet' run high.sv "${rest[@]}"
expect 2 'usage'
expect 2 'usage' --help
expect 2 'usage' run $'a\377.sv' "${rest[@]}"
expect 2 'usage' run $'a\001.sv' "${rest[@]}"
[ ! -e top.wit ]
status 0 "no witness is written but by a run"

"$program" run a.sv "${rest[@]}" > /dev/full
status 4 "a full standard output"
[ "$(cat top.wit)" = $'nettype-witness 1\nr 0 1' ]
status 0 "the witness where the standard output is full"
"$program" run a.sv "${rest[@]}" >&-
status 4 "a closed standard output"
[ "$(cat top.wit)" = $'nettype-witness 1\nr 0 1' ]
status 0 "the witness where the standard output is closed"
rm top.wit
mkdir top.wit
expect 4 '' run a.sv "${rest[@]}"

[ "$failed" = 0 ] && echo "outside: as it should be"
exit "$failed"
