#!/usr/bin/env bash
# Each allocation of a run is refused, one at a time: the status is 5 with its line, or 0 with the whole
# output, and in the first case nothing is written.
# Usage: checks/memory.sh PROGRAM. Its last line is 'N passed, M failed'.
set -u
program=$1
command -v cc > /dev/null || { echo "memory: skipped, no C compiler"; exit 0; }
scratch=$(mktemp -d) || exit 1
trap 'rm -rf "$scratch"' EXIT
cc -O1 -shared -fPIC -o "$scratch/refuse.so" checks/refuse_allocation.c -ldl || { echo "memory: skipped, it does not compile"; exit 0; }
passed=0
failed=0

# run SCRIPT NUMBER: the program with that allocation refused.
run() {
    REFUSE_ALLOCATION=$2 LD_PRELOAD="$scratch/refuse.so" "$program" run < "$1" > "$scratch/output" 2> "$scratch/line" 9> "$scratch/count"
}

# each SCRIPT: all its allocations in turn.
each() {
    run "$1" 0 || { echo "$1: status $? with all its memory"; failed=$((failed + 1)); return; }
    cp "$scratch/output" "$scratch/whole"
    : > "$scratch/nothing"
    local count number status
    count=$(cat "$scratch/count")
    for ((number = 1; number <= count; number++)); do
        run "$1" "$number"
        status=$?
        if [ "$status" = 0 ] && cmp -s "$scratch/output" "$scratch/whole"; then
            passed=$((passed + 1))
        elif [ "$status" = 5 ] && cmp -s "$scratch/output" "$scratch/nothing" && [ "$(cat "$scratch/line")" = 'out of memory' ]; then
            passed=$((passed + 1))
        else
            failed=$((failed + 1))
            echo "$1: allocation $number refused: status $status, '$(cat "$scratch/line")'"
        fi
    done
    echo "$1: $count allocations"
}

each examples/lab.vnet
# Jails with a jail below each, to which halves are lent; some come back, some go home when that jail ends.
for jail in a a.b b c c.d e; do
    echo "1 host jail -c name=$jail vnet persist children.max=1"
    echo "2 $jail jail -c name=x persist vnet"
    for pair in epair0 epair7; do
        echo "3 $jail ifconfig $pair create"
        echo "3 $jail ifconfig ${pair}a vnet x"
        echo "4 $jail.x ifconfig ${pair}a ether 02:00:00:00:00:99"
        echo "4 $jail.x ifconfig ${pair}a up"
    done
    echo "3 $jail ifconfig epair create"
    echo "4 $jail.x ifconfig epair7a down"
    echo "3 $jail ifconfig epair7a -vnet x"
    echo "3 $jail ifconfig epair7a destroy"
    echo "2 $jail jail -r x"
done > "$scratch/middling"
echo "1 host jail -r a" >> "$scratch/middling"
each "$scratch/middling"
echo "$passed passed, $failed failed"
[ "$failed" = 0 ]
