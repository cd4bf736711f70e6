#!/bin/sh
# Tests of what no contract can say: refused memory and threads, a differential fuzz, devices, signals, stored runs,
# the examples. docs/TESTING.md says what each adds. They take some twelve minutes; the last line is
# 'N passed, M failed, K skipped', and the status is 0 if nothing failed. K counts what was not tried here; a line for each,
# above the last one, says what it lacks. tests/needs.sh installs what can be installed.
#
# usage: tests/run.sh [--seed N] [--long] [PART ..]
#
# PART is first, stored, orders, examples, explained, papers, shipped, linked, edits, joining, opened, quoted, scripts, vcd, objects,
# page, devices, signals, stopping, merging, refusals, growths, workers, fuzz, second, flows or cluster; all of them if none is named.
# Second is some of these with the program as the kit's other compiler builds it, if rt ci has left that. --long goes on with refusals
# and fuzz, by other seeds, until it is stopped or something fails. BDDCHECK names another program than the proved one.
cd "$(dirname "$0")/.." || exit 2
seed='' long=''
while :; do
    case ${1-} in
    --seed) seed=${2:?a number} && shift 2 ;;
    --long) long=yes && shift ;;
    -*) sed -n '2,13s/^# \{0,1\}//p' tests/run.sh >&2 && exit 2 ;;
    *) break ;;
    esac
done
[ $# -gt 0 ] || set -- stored orders examples explained papers shipped linked edits joining opened quoted scripts vcd objects page devices signals stopping merging refusals growths workers fuzz second flows cluster first

# What the parts print goes on, and their last lines are added up. What they skipped is named again at the end.
passed=0 failed=0 skipped=0 missed=
finish() {
    printf %s "$missed"
    echo "$passed passed, $failed failed, $skipped skipped"
    [ "$failed" -eq 0 ]
    exit
}
fail() {
    echo "FAILED tests: $*"
    failed=$((failed + 1))
}
skip() {
    echo "SKIPPED $*"
    skipped=$((skipped + 1))
    missed="${missed}SKIPPED $*
"
}
program=${BDDCHECK:-}
if [ -z "$program" ]; then
    program=$PWD/crates/bddcheck/out/bddcheck
    # Builds it if it is missing or older than a source, so that no test runs an old program.
    tools/build.py </dev/null || { fail "the program could not be built" && finish; }
fi
command -v python3 >/dev/null || { fail "python3 is missing" && finish; }

log=$(mktemp) || exit 2
trap 'rm -f "$log"' EXIT
add() {
    passed=$((passed + $1)) failed=$((failed + $2)) wrong=$2
    skipped=$((skipped + ${3:-0}))
}
part() {
    name=$1 && shift
    "$@" >"$log"
    status=$?
    cat "$log"
    counts=$(tail -n 1 "$log" | sed -n "s/^$name: \([0-9]*\) passed, \([0-9]*\) failed\(, \([0-9]*\) skipped\)\{0,1\}\$/\1 \2 \4/p")
    if [ -z "$counts" ]; then
        fail "$name ended with status $status and no counts"
        return
    fi
    add $counts
    others=$(grep '^SKIPPED ' "$log") && missed="$missed$others
"
    [ "$status" -eq 0 ] || [ "$wrong" -gt 0 ] || fail "$name ended with status $status"
}
# The program of the other compiler, if it is there and no source is newer.
second() {
    other=$program.by-rattle
    if [ -x "$other" ] && [ -z "$(find crates.txt crates -name out -prune -o -type f -newer "$other" -print | head -n 1)" ]; then
        for name in stored examples objects devices signals; do
            part "$name" python3 "tests/$name.py" "$other"
        done
        part fuzz python3 tests/fuzz.py "$other" --seconds 30 ${seed:+--seed "$seed"}
    else
        skip "second: there is no program of the other compiler, which rt ci leaves, so nothing was tried with it"
    fi
}
parts() {
    for name; do
        case $name in
        stored | examples | papers | shipped | objects | devices | signals | stopping | merging | workers) part "$name" python3 "tests/$name.py" "$program" ;;
        edits | linked | joining | quoted | scripts) part "$name" python3 "tests/$name.py" ;;
        opened) part opened python3 tests/opened.py ${seed:+--seed "$seed"} ;;
        first) part first python3 tests/first.py "$program" ;;
        refusals | fuzz | explained | vcd | page | orders) part "$name" python3 "tests/$name.py" "$program" ${seed:+--seed "$seed"} ;;
        growths) part growths python3 tests/growths.py crates ;;
        second) second ;;
        flows | cluster) part "$name" "tests/$name.sh" "$program" ;;
        *) fail "no part $name" ;;
        esac
    done
}
# If the script is stopped, it reports what it has tried so far.
trap 'echo "stopped: $passed passed, $failed failed, $skipped skipped"; exit 130' INT TERM
parts "$@"
round=0
while [ -n "$long" ] && [ "$failed" -eq 0 ]; do
    round=$((round + 1))
    seed=${seed:+${seed%%.*}.$round}
    parts refusals fuzz
    echo "round $round: $passed passed, $failed failed, $skipped skipped" >&2
done
finish
