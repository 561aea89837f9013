#!/usr/bin/env bash
# How long the program takes for large scripts, and how much memory, each the best of three runs:
# 50,000 and 100,000 distinct jails below host, one jail made 119,000 times, and comments alone.
# Usage: bench/jails.sh [PROGRAM]. Nothing fails by it.
set -u
cd "$(dirname "$0")/.." || exit 1
program=${1:-crates/vnetsh/out/vnetsh}
[ -x "$program" ] || { echo "jails: skipped, no $program"; exit 0; }
[ -x /usr/bin/time ] || { echo "jails: skipped, no /usr/bin/time"; exit 0; }
scratch=$(mktemp -d) || exit 1
trap 'rm -rf "$scratch"' EXIT

# distinct NUMBER: so many lines of 40 octets, each with another jail.
distinct() {
    awk -v n="$1" 'BEGIN { for (i = 0; i < n; i++) printf "1 host jail -c name=j%05d vnet persist\n", i }'
}

distinct 50000 > "$scratch/50,000 jails"
distinct 100000 > "$scratch/100,000 jails"
yes '1 host jail -c name=a vnet persist' | head -n 119000 > "$scratch/one jail 119,000 times"
yes '# a comment of sixty-four octets, with its end, and nothing in it' | head -c 4194304 > "$scratch/4,194,304 octets of comments"

# best FILE: the least seconds and kilobytes of three runs.
best() {
    for _ in 1 2 3; do
        /usr/bin/time -f '%e %M' -o "$scratch/time" "$program" run < "$1" > /dev/null || exit 1
        cat "$scratch/time"
    done | sort -n | head -n 1
}

for name in '50,000 jails' '100,000 jails' 'one jail 119,000 times' '4,194,304 octets of comments'; do
    read -r seconds kilobytes < <(best "$scratch/$name")
    echo "$name: $seconds s, $((kilobytes / 1000)) MB"
    case $name in
        50,000*) half=$seconds ;;
        100,000*) awk -v a="$seconds" -v b="$half" 'BEGIN { if (b > 0) printf "  ratio to 50,000: %.2f\n", a / b }' ;;
    esac
done
