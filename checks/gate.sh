#!/usr/bin/env bash
# The gate, from nothing: a look at all edits by the compiler's front end, then `rt ci`, the other edits, and the
# scripts of this folder that checks/run runs. Its last line adds up what they count: 'N passed, M failed'. The status
# is 0 if nothing failed.
#
# `rt ci` proves crates one on another, often with one process at a time. So edits.py begins beside it: a crate's edits
# want the crates below it alone. It is a little nicer, since nothing shortens the chain of `rt ci`; no more, since what
# is much nicer starves beside the work of others. The scripts begin once `rt ci` has ended.
#
# It removes crates/*/out, so that nothing is taken from earlier runs: run it in a clone if you want to keep them.
#
# Use: checks/gate.sh     (the scripts want a C compiler, binutils and Python 3)
set -u
cd "$(dirname "$0")/.." || exit
passed=0
failed=0
logs=$(mktemp -d)
trap 'rm -rf "$logs"' EXIT

# counted NAME STATUS: adds up what the last line of a command's log counts; a command that counts nothing, or fails without
# saying so, is one failure
counted() {
    local line
    line=$(grep -E '^[0-9]+ passed, [0-9]+ failed' "$logs/$1" | tail -1)
    if [ -z "$line" ] || { [ "$2" != 0 ] && [[ $line == *', 0 failed'* ]]; }; then
        echo "$1: status $2"
        failed=$((failed + 1))
    fi
    if [ -n "$line" ]; then
        passed=$((passed + ${line%% passed*}))
        line=${line#*, }
        failed=$((failed + ${line%% failed*}))
    fi
}

# ended WHAT: how long the gate has run, for whoever looks where its time goes
ended() {
    echo "gate.sh: $1 ended after $((SECONDS / 60)) minutes $((SECONDS % 60)) seconds"
}

# an edit that doesn't reach the prover fails `rt ci`, an hour later
checks/frontend.py 2>&1 | tee "$logs/frontend.py"
counted frontend.py "${PIPESTATUS[0]}"
ended frontend.py
if [ "$failed" != 0 ]; then
    echo "$passed passed, $failed failed"
    exit 1
fi

# begin SCRIPT [WORD]..: runs a script of this folder in the background
begin() {
    {
        nice -n 5 "checks/$1" "${@:2}" > "$logs/$1" 2>&1
        echo $? > "$logs/$1, its status"
        ended "$1"
    } &
}

rm -rf crates/*/out
anew=()
if rt --help 2>&1 | grep -q -- '--anew'; then anew=(--anew); fi
: > "$logs/rt-ci"
begin edits.py --beside "$logs/rt-ci"
begin edits_test.py
rt ci "${anew[@]}" 2>&1 | tee "$logs/rt-ci"
counted rt-ci "${PIPESTATUS[0]}"
# (so that edits.py doesn't wait for more, however it ended)
echo '0 passed, 0 failed' >> "$logs/rt-ci"
# an edit that is only refused for a name that a proof file lost shows nothing
if grep 'only because a proof file names what the edit took away' "$logs/rt-ci"; then failed=$((failed + 1)); fi
ended 'rt ci'

checks/run oracle devices surface library pages 2>&1 | tee "$logs/run"
counted run "${PIPESTATUS[0]}"
ended run
wait
for script in edits.py edits_test.py; do
    cat "$logs/$script"
    counted "$script" "$(cat "$logs/$script, its status")"
done
ended 'the gate'
echo "$passed passed, $failed failed"
[ "$failed" = 0 ]
