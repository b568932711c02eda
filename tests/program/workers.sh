#!/bin/sh
# Runs small programs by 1, 2 and 64 worker threads: two activities in step, a ring of three clocks, three activities
# that add to a shared number, two that have long loops of their own, and as many on a clock as main is given. Each run
# has to end in as many steps as every run of the program, and to print the same numbers, in whatever order; its log has
# to have the same entries, in whatever order, and to be that of a run that prints just what it printed, and that can be
# charted. Five times each, also where no thread or few can be started. Then a storm: fifty runs by 4 workers of 57
# activities that go through 25 phases of nine clocks, each within ten seconds; two programs whose workers get in one
# another's way; and a long run by 3 workers, which has to have three threads. With the word `stress` all but these two
# hundred times each, and then the ring a thousand times by 64 workers on two processors, within five minutes; how long
# that takes is told beside the same in the order `first`.
set -eu
cd "$(dirname "$0")/../.."
. tests/harness.sh
runs=0

fail() {
    echo "workers: $*" >&2
    exit 1
}

# limited BYTES COMMAND..: the command, within a minute, with so much address space, or as much as there is where the
# word is `unlimited`; where that is little it can't start another process or thread either, unless it is the
# superuser's.
limited() {
    space=$1
    shift
    if [ "$space" = unlimited ]; then timeout 60 "$@"; else timeout 60 prlimit --as="$space" --nproc=1 "$@"; fi
}

# by_workers N SPACE ROW WORDS: one run of the program by so many workers in so much address space, its log, and the
# log's chart.
by_workers() {
    what="$3 by $1 workers in space $2"
    limited "$2" "$program" run $4 --workers "$1" --log "$work/log" "tests/program/rows/$3" \
        > "$work/out" 2> "$work/err" || fail "$what: $(cat "$work/err")"
    [ ! -s "$work/err" ] || fail "$what: $(cat "$work/err")"
    [ "$(tail -n 1 "$work/out")" = "$(tail -n 1 "$work/wanted")" ] || fail "$what: $(cat "$work/out")"
    sort "$work/out" > "$work/sorted"
    cmp -s "$work/sorted" "$work/wanted-sorted" || fail "$what: $(cat "$work/out")"
    "$program" replay $4 "tests/program/rows/$3" "$work/log" > "$work/again" || fail "$what: its log isn't replayed"
    cmp -s "$work/again" "$work/out" || fail "$what: its log prints $(cat "$work/again")"
    "$program" chart $4 "tests/program/rows/$3" "$work/log" > "$work/chart" || fail "$what: its log isn't charted"
    sort "$work/log" > "$work/entries"
    [ -e "$work/wanted-entries" ] || cp "$work/entries" "$work/wanted-entries"
    cmp -s "$work/entries" "$work/wanted-entries" || fail "$what: its log has other entries"
    runs=$((runs + 1))
}

# often TIMES SPACE: each program so often by 1, 2 and 64 workers.
often() {
    for row in in-step.x10 ring.json shared-sum.x10 two-loops.x10 as-many.x10; do
        case $row in *.json) form=--module ;; *) form= ;; esac
        given=tests/program/rows/${row%.*}.args
        [ ! -e "$given" ] || form="$form $(sed 's/^/--arg=/' "$given")"
        cp "tests/program/rows/${row%.*}.stdout" "$work/wanted"
        sort "$work/wanted" > "$work/wanted-sorted"
        rm -f "$work/wanted-entries"
        for workers in 1 2 64; do
            at=0
            while [ "$at" -lt "$1" ]; do
                by_workers "$workers" "$2" "$row" "$form"
                at=$((at + 1))
            done
        done
    done
}

# storm: fifty runs of many phases by 4 workers.
storm() {
    printf '1200\nended steps 6240\n' > "$work/wanted"
    at=0
    while [ "$at" -lt 50 ]; do
        timeout 10 "$program" run --workers 4 tests/program/logs/storm.x10 > "$work/out" 2> "$work/err" ||
            fail "storm $at: status $?: $(cat "$work/err")"
        cmp -s "$work/out" "$work/wanted" || fail "storm $at: $(cat "$work/out")"
        at=$((at + 1))
        runs=$((runs + 1))
    done
}

# crossing TIMES: each of two programs so often by 2, 8 and 64 workers, whose activities reckon for long between steps
# that others see, so that the workers get in one another's way: its log is that of a run that prints just what it
# printed. How many different logs there were is told.
crossing() {
    for row in adders crossing; do
        "$program" run "tests/program/logs/$row.x10" > "$work/wanted"
        sort "$work/wanted" > "$work/wanted-sorted"
        : > "$work/sums"
        at=0
        while [ "$at" -lt "$1" ]; do
            for workers in 2 8 64; do
                what="$row by $workers workers"
                timeout 20 "$program" run --workers "$workers" --log "$work/log" "tests/program/logs/$row.x10" \
                    > "$work/out" 2> "$work/err" || fail "$what: status $?: $(cat "$work/err")"
                sort "$work/out" > "$work/sorted"
                cmp -s "$work/sorted" "$work/wanted-sorted" || fail "$what: $(cat "$work/out")"
                "$program" replay "tests/program/logs/$row.x10" "$work/log" > "$work/again" ||
                    fail "$what: its log isn't replayed"
                cmp -s "$work/again" "$work/out" || fail "$what: its log prints $(cat "$work/again")"
                cksum < "$work/log" >> "$work/sums"
                runs=$((runs + 1))
            done
            at=$((at + 1))
        done
        echo "workers: $row: $(sort -u "$work/sums" | wc -l) different logs in $(wc -l < "$work/sums") runs"
    done
}

# three_threads: a run by 3 workers that takes long has three threads within ten seconds, and is ended then.
three_threads() {
    "$program" run --workers 3 tests/program/logs/endless.x10 > "$work/out" 2> "$work/err" &
    running=$!
    threads=0
    at=0
    while [ "$threads" -ne 3 ] && [ "$at" -lt 100 ]; do
        sleep 0.1
        threads=$(awk '$1 == "Threads:" { print $2 }' "/proc/$running/status") || threads=0
        at=$((at + 1))
    done
    kill "$running" || fail "three threads: no run any more"
    wait "$running" 2> "$work/ended" || true
    [ "$threads" -eq 3 ] || fail "three threads: there are $threads: $(cat "$work/out" "$work/err")"
    runs=$((runs + 1))
}

# seconds WORDS..: how long a thousand runs of the ring with these words take on two processors.
seconds() {
    begun=$(date +%s.%N)
    timeout 300 taskset -c "$two" sh -c '
        program=$1
        shift
        at=0
        while [ "$at" -lt 1000 ]; do
            [ "$("$program" run --module "$@" tests/program/rows/ring.json)" = "ended steps 22" ] || exit 1
            at=$((at + 1))
        done' sh "$program" "$@" || fail "a thousand rings with $*: status $?"
    echo "$begun $(date +%s.%N)" | awk '{ printf "%.1f", $2 - $1 }'
}

times=5
[ "${1:-}" != stress ] || times=200
often "$times" unlimited
often 5 60000000
storm
crossing $((times * 2))
three_threads
if [ "${1:-}" = stress ]; then
    two=$(python3 -c 'import os; print(*sorted(os.sched_getaffinity(0))[:2], sep=",")')
    threaded=$(seconds --workers 64)
    ordered=$(seconds --order first)
    echo "workers: a thousand rings on two processors: $threaded s by 64 workers, $ordered s in the order first"
fi
echo "workers: $runs runs, all as they must be"
