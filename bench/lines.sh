#!/usr/bin/env bash
# How long the program takes to read 4,194,304 octets of lane lines, the best of three runs: the last line is
# refused, so nothing is run. One script has short lines, each of which makes a jail, one has lines whose words
# stand apart, and one has the longest line again and again.
# Usage: bench/lines.sh [PROGRAM]. Nothing fails by it.
set -u
cd "$(dirname "$0")/.." || exit 1
program=${1:-crates/vnetsh/out/vnetsh}
[ -x "$program" ] || { echo "lines: skipped, no $program"; exit 0; }
[ -x /usr/bin/time ] || { echo "lines: skipped, no /usr/bin/time"; exit 0; }
scratch=$(mktemp -d) || exit 1
trap 'rm -rf "$scratch"' EXIT

most=4194304

# filled LINE: so many whole lines as fit, and then one whose first word is no lane.
filled() {
    local octets=$((${#1} + 1)) last='9 host'
    yes "$1" | head -n $(((most - ${#last} - 1) / octets))
    echo "$last"
}

filled '1 host jail -c name=a vnet persist' > "$scratch/short lines"
filled '  8   host   jail   -c   persist   children.max=9999   vnet   name=abcdefghijklmnop.abcdefghijklmnop  ' > "$scratch/words apart"
filled "$(printf '1 host jail -c name=a vnet persist%4062s' '')" > "$scratch/long lines"

# best FILE: the least seconds and kilobytes of three runs; status 2 is that of a refused line.
best() {
    for _ in 1 2 3; do
        /usr/bin/time -f '%e %M' -o "$scratch/time" "$program" run < "$1" > /dev/null 2> "$scratch/said"
        [ "$?" = 2 ] || { echo "lines: another status: $(cat "$scratch/said")" >&2; exit 1; }
        tail -n 1 "$scratch/time"
    done | sort -n | head -n 1
}

for name in 'short lines' 'words apart' 'long lines'; do
    read -r seconds kilobytes < <(best "$scratch/$name")
    echo "$name: $seconds s, $((kilobytes / 1000)) MB; to the bound of 0.5 s: $(awk -v s="$seconds" 'BEGIN { printf "%.2f", s / 0.5 }')"
done
