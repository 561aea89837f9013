#!/usr/bin/env bash
# How long the program takes for pairs that move, and how much memory, each the best of three runs: 1,000 jails
# below host, and 10,000 and 20,000 pairs of host, made one after another, lent to a jail each, taken back and
# destroyed. The last line is the ratio of the two times; it should be at most 2.3, and nothing fails by it.
# Usage: bench/pairs.sh [PROGRAM].
set -u
cd "$(dirname "$0")/.." || exit 1
program=${1:-crates/vnetsh/out/vnetsh}
[ -x "$program" ] || { echo "pairs: skipped, no $program"; exit 0; }
[ -x /usr/bin/time ] || { echo "pairs: skipped, no /usr/bin/time"; exit 0; }
scratch=$(mktemp -d) || exit 1
trap 'rm -rf "$scratch"' EXIT

# moving NUMBER: the script of so many pairs, four lines a pair; all stand at once, and all are lent at once.
moving() {
    awk -v n="$1" 'BEGIN {
        for (j = 0; j < 1000; j++) printf "1 host jail -c name=j%d vnet persist\n", j
        for (i = 0; i < n; i++) print "1 host ifconfig epair create"
        for (i = 0; i < n; i++) printf "1 host ifconfig epair%da vnet j%d\n", i, i % 1000
        for (i = 0; i < n; i++) printf "1 host ifconfig epair%da -vnet j%d\n", i, i % 1000
        for (i = 0; i < n; i++) printf "1 host ifconfig epair%da destroy\n", i
    }'
}

# all_ok FILE NUMBER: whether so many commands were done, and none was refused.
all_ok() {
    "$program" run < "$1" > "$scratch/output" || return 1
    [ "$(grep -c ' = ' "$scratch/output")" = "$2" ] && ! grep -q ' = E' "$scratch/output"
}

# best FILE: the least seconds and kilobytes of three runs.
best() {
    for _ in 1 2 3; do
        /usr/bin/time -f '%e %M' -o "$scratch/time" "$program" run < "$1" > /dev/null || exit 1
        cat "$scratch/time"
    done | sort -n | head -n 1
}

for pairs in 10000 20000; do
    moving "$pairs" > "$scratch/$pairs"
    all_ok "$scratch/$pairs" $((1000 + 4 * pairs)) || { echo "pairs: $pairs: a command was refused, or the run"; exit 1; }
    read -r seconds kilobytes < <(best "$scratch/$pairs")
    echo "$pairs pairs: $seconds s, $((kilobytes / 1000)) MB"
    [ "$pairs" = 10000 ] && half=$seconds
done
awk -v a="$seconds" -v b="$half" 'BEGIN { if (b > 0) printf "pairs: ratio to 10000: %.2f\n", a / b }'
