#!/usr/bin/env bash
# The program at the edges that no contract speaks of: files, pipes, directories, full and closed ends.
# Usage: checks/edges.sh PROGRAM. Its last line is 'N passed, M failed'.
set -u
program=$1
script=examples/lab.vnet
scratch=$(mktemp -d) || exit 1
trap 'rm -rf "$scratch"' EXIT
passed=0
failed=0

# expect NAME STATUS LINE: compares what the last call left in $status and $scratch/line.
expect() {
    if [ "$status" = "$2" ] && [ "$(cat "$scratch/line")" = "$3" ]; then
        passed=$((passed + 1))
    else
        failed=$((failed + 1))
        echo "$1: status $status and '$(cat "$scratch/line")', not $2 and '$3'"
    fi
}

# expect_output NAME FILE: compares what the last call wrote with a file.
expect_output() {
    if cmp -s "$scratch/output" "$2"; then
        passed=$((passed + 1))
    else
        failed=$((failed + 1))
        echo "$1: other output than $2"
    fi
}

# in_readme FILE: whether the README has what comes by standard input, four spaces to the right, which is from that file.
in_readme() {
    if [[ "$(cat README.md)" == *"$(sed 's/^\(.\)/    \1/')"* ]]; then
        passed=$((passed + 1))
    else
        failed=$((failed + 1))
        echo "README.md: does not have $1 as it is"
    fi
}

in_readme examples/lab.vnet < examples/lab.vnet
in_readme examples/lab.out < <(sed '/ - /d; /^== pool/,$d' examples/lab.out)

for example in examples/*.vnet; do
    "$program" run < "$example" > "$scratch/output" 2> "$scratch/line"; status=$?
    expect "$example" 0 ''
    expect_output "$example" "${example%.vnet}.out"
done

usage='usage: vnetsh run|threads|replay|project CELLS|gen N'
: > "$scratch/nothing"

cat "$script" | "$program" run 2> "$scratch/line" | cat > "$scratch/output"; status=${PIPESTATUS[1]}
expect "pipes" 0 ''
expect_output "pipes" "${script%.vnet}.out"

"$program" run < "$script" > /dev/full 2> "$scratch/line"; status=$?
expect "a full output" 4 'write fault'

"$program" run < "$script" 2> "$scratch/line" >&-; status=$?
expect "a closed output" 4 'write fault'

yes '1 host jail -c name=a vnet persist' | head -n 20000 > "$scratch/large"
"$program" run < "$scratch/large" 2> "$scratch/line" | head -n 1 > "$scratch/output"; status=${PIPESTATUS[0]}
expect "a pipe whose reader ends" 4 'write fault'

"$program" run < . > "$scratch/output" 2> "$scratch/line"; status=$?
expect "a directory" 3 'read fault'
expect_output "a directory" "$scratch/nothing"

"$program" run > "$scratch/output" 2> "$scratch/line" <&-; status=$?
expect "a closed input" 3 'read fault'
expect_output "a closed input" "$scratch/nothing"

yes '' | head -c 4194304 | "$program" run > "$scratch/output" 2> "$scratch/line"; status=$?
expect "4,194,304 octets" 0 ''

yes '' | head -c 4194305 | "$program" run > "$scratch/output" 2> "$scratch/line"; status=$?
expect "4,194,305 octets" 6 'input too long'
expect_output "4,194,305 octets" "$scratch/nothing"

yes '1 a ifconfig lo0 up' | head -n 200000 | "$program" run > "$scratch/output" 2> "$scratch/line"; status=$?
expect "200,000 events" 0 ''

yes '1 a ifconfig lo0 up' | head -n 200001 | "$program" run > "$scratch/output" 2> "$scratch/line"; status=$?
expect "200,001 events" 7 'too many events'
expect_output "200,001 events" "$scratch/nothing"

printf '1 host jail -c name=a vnet persist\n1 host jail -c nme=b vnet persist\n' > "$scratch/typo"
"$program" run < "$scratch/typo" > "$scratch/output" 2> "$scratch/line"; status=$?
expect "a mistyped word" 2 'script: line 2: command'
expect_output "a mistyped word" "$scratch/nothing"

"$program" > "$scratch/output" 2> "$scratch/line" < "$script"; status=$?
expect "no words" 1 "$usage"

"$program" "$(printf 'run\377')" > "$scratch/output" 2> "$scratch/line" < "$script"; status=$?
expect "a word that is no text" 1 "$usage"

echo "$passed passed, $failed failed"
[ "$failed" = 0 ]
