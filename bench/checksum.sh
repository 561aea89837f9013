#!/usr/bin/env bash
# How long the sum takes beside the same work in C (checksum.c, built by `cc -O2`). The last line is the
# ratio of the two times; it should be at most 3, and nothing fails by it.
# Use: bench/checksum.sh [ROUNDS], once `rt run` or the gate has built crates/vn_bench.
set -u
cd "$(dirname "$0")/.." || exit 1

rounds=${1:-400000}
ours=crates/vn_bench/out/vn_bench

if ! command -v cc >/dev/null; then
    echo "checksum: skipped, no C compiler"
    exit 0
fi
if [ ! -x "$ours" ]; then
    echo "checksum: skipped, no $ours"
    exit 0
fi

folder=$(mktemp -d) || exit 1
trap 'rm -rf "$folder"' EXIT
theirs=$folder/checksum
cc -O2 -o "$theirs" bench/checksum.c || exit 1

# The microseconds that a command takes; what it prints goes to a file.
microseconds() {
    local file=$1 start=${EPOCHREALTIME/./}
    shift
    "$@" >"$file" || exit 1
    echo $((${EPOCHREALTIME/./} - start))
}

# The least of three runs of each, in turn.
least_ours= least_theirs=
for _ in 1 2 3; do
    time=$(microseconds "$folder/theirs" "$theirs" "$rounds") || exit 1
    [ -n "$least_theirs" ] && [ "$least_theirs" -le "$time" ] || least_theirs=$time
    time=$(microseconds "$folder/ours" "$ours" sum "$rounds") || exit 1
    [ -n "$least_ours" ] && [ "$least_ours" -le "$time" ] || least_ours=$time
done

if ! cmp -s "$folder/ours" "$folder/theirs"; then
    echo "checksum: the sums differ: $(cat "$folder/ours"), in C $(cat "$folder/theirs")"
    exit 1
fi
awk -v ours="$least_ours" -v theirs="$least_theirs" -v rounds="$rounds" 'BEGIN {
    printf "checksum: %d rounds of 1500 octets: %.3f s, in C %.3f s, ratio %.2f\n",
        rounds, ours / 1e6, theirs / 1e6, ours / theirs
}'
