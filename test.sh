#!/usr/bin/env bash
# Proves every listed crate, tries every must-fail edit, runs the programs and the tests (rt ci, which does not do again what
# passed on this machine); then runs the program on every script of samples/ and on the longest, and tries the programs under
# refused/, which must not compile. Its last line is the tally of all.
set -u
cd "$(dirname "$0")" || exit 2

log=$(mktemp) work=$(mktemp -d)
trap 'rm -rf "$log" "$work"' EXIT

rt ci 2>&1 | tee "$log"
status=${PIPESTATUS[0]}
tally=$(tail -n 1 "$log" | sed -n 's/^\([0-9][0-9]*\) passed, \([0-9][0-9]*\) failed.*$/\1 \2/p')
if [ -z "$tally" ]; then
    passed=0 failed=1
    echo "test.sh: rt ci ended without a tally"
else
    passed=${tally% *} failed=${tally#* }
fi
if [ "$status" -ne 0 ] && [ "$failed" -eq 0 ]; then
    failed=1
    echo "test.sh: rt ci ended with status $status"
fi
# An edit that reaches no verdict counts for nothing, and rt ci passes all the same.
if grep -q '^rt: ok.*, [1-9][0-9]* bad' "$log"; then
    failed=$((failed + 1))
    echo "test.sh: a must-fail edit is bad"
fi

# Runs the program: its exit status, what it prints and what it shows on standard error must be as told.
program() {
    local name=$1 status=$2 printed=$3 shown=$4
    shift 4
    crates/rounds/out/rounds "$@" >"$work/printed" 2>"$work/shown"
    if [ $? -eq "$status" ] && cmp -s "$work/printed" "$printed" && cmp -s "$work/shown" "$shown"; then
        passed=$((passed + 1))
        echo "$name: as it must be"
    else
        failed=$((failed + 1))
        echo "$name: NOT as it must be:"
        diff "$work/printed" "$printed" | head -n 8
        diff "$work/shown" "$shown" | head -n 8
    fi
}

(cd crates/rounds && rt run) </dev/null >"$work/rounds.log" 2>&1 || tail -n 8 "$work/rounds.log"
# Beside each script of samples/ stands what it prints, and beside some the views of contract 3 at its end.
for script in samples/*.ctm; do
    sample=${script%.ctm}
    if [ -f "$sample.views" ]; then
        program "$sample, with views" 0 "$sample.out" "$sample.views" --views 3 "$script"
    else
        program "$sample" 0 "$sample.out" /dev/null "$script"
    fi
done
# A script of as many bytes as one may have: over and over an iceberg of 999.9 MW is traded away in 200 slices, and the last
# line's word is drawn out to the byte. With one byte more it is too long, and nothing of it is run.
awk 'BEGIN {
    print "CTM 1"
    for (i = 0; i < 1170; i++) print "E 1 1 0 S 0 ICE 1 999.9 5 0\nE 2 1 0 B 0 NON 1 999.9 0 0"
    printf "K 5.000000"
}' >"$work/longest"
awk 'BEGIN {
    print "CTM 1"
    for (i = 0; i < 1170; i++) {
        print "Q 1"
        for (slice = 1; slice < 200; slice++) print "T 0 2 1 1.00 5.0 0"
        print "T 0 2 1 1.00 4.9 0\nQ 0"
    }
    print "Q 0"
}' >"$work/out"
{ cat "$work/longest" && echo; } >"$work/overlong"
if [ "$(wc -c <"$work/longest")" -ne 65536 ] || [ "$(wc -c <"$work/overlong")" -ne 65537 ]; then
    failed=$((failed + 1))
    echo "test.sh: the longest script has not 65,536 bytes"
fi
program "the longest script" 0 "$work/out" /dev/null "$work/longest"
printf 'CTM 1\nR 0 17 0\n' >"$work/out"
program "an overlong script" 0 "$work/out" /dev/null "$work/overlong"
echo "Error: the views of contract 24 are refused by 2" >"$work/err"
program "views of no contract" 1 samples/trade.out "$work/err" --views 24 samples/trade.ctm

# A text under refused/ names in its first two lines the error it must meet and the crates it stands on,
# and marks by '// refused here' the line at which the compiler must stop. Each is tried as a crate of its own,
# in a copy of this repository with what rt ci built.
cp -r crates "$work/crates"
for text in refused/*.txt; do
    name=$(basename "$text" .txt)
    error=$(sed -n '1s/^\/\/ must be refused: //p' "$text")
    line=$(grep -n '// refused here' "$text" | cut -d: -f1)
    mkdir -p "$work/crates/$name/src"
    cp "$text" "$work/crates/$name/src/lib.rt"
    { cat crates.txt && echo "$name: $(sed -n '2s/^\/\/ stands on: //p' "$text")"; } >"$work/crates.txt"
    (cd "$work/crates/$name" && rt check --only "") >"$work/$name.out" 2>&1
    if [ $? -eq 1 ] && [ -n "$error" ] && [ "$(grep -c ': error' "$work/$name.out")" -eq 1 ] &&
        grep -q "lib.rt:$line:[0-9]*: error\[$error\]" "$work/$name.out"; then
        passed=$((passed + 1))
        echo "refused/$name: refused, as it must be ($error)"
    else
        failed=$((failed + 1))
        echo "refused/$name: NOT REFUSED by $error at line $line; the compiler said:"
        grep -v ': proved$' "$work/$name.out" | tail -n 8
    fi
done

echo "$passed passed, $failed failed"
[ "$failed" -eq 0 ]
