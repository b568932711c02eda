#!/bin/sh
# All figures of docs/PERFORMANCE.md in one run, of the program that X10CLOCK names, or of the built one:
#
#     sh bench/all.sh
#
# Keeps what each script prints in bench/results/, and makes the page's tables from that (bench/tables.py). Needs rustc,
# valgrind, GNU time, lua5.4, spin and gcc, and half an hour in which the machine has nothing else to do. Where a tool
# isn't here, or a script fails, that is said, and the results of before stay.
set -eu
cd "$(dirname "$0")/.."
made=$(mktemp)
trap 'rm -f "$made"' EXIT
commit=$(git describe --always --dirty --exclude '*')
program=${X10CLOCK:-crates/x10clock/out/x10clock}
status=0
[ -x "$program" ] || {
    echo "all.sh: no program $program" >&2
    exit 2
}

# heading: when the results were made, and of what.
heading() {
    echo "# date $(date -u '+%Y-%m-%d %H:%M')"
    echo "# commit $commit, $("$program" --version | head -n 1)"
    echo "# processor $(sed -n 's/^model name[^:]*: //p' /proc/cpuinfo | sort | uniq -c | sed 's/^ *//; s/ / of /')"
}

# section NAME TOOLS WORDS..: keeps in bench/results/NAME.txt what a script prints that needs these tools.
section() {
    name=$1 tools=$2
    shift 2
    printf '\n== %s\n' "$name"
    for tool in $tools; do
        command -v "$tool" >/dev/null || {
            echo "$name: no $tool is here: its results stay as they were"
            return
        }
    done
    if heading >"$made" && python3 -m "$@" >>"$made"; then
        cat "$made"
        cat "$made" >"bench/results/$name.txt"
    else
        echo "$name: python3 -m $* failed: its results stay as they were"
        status=1
    fi
}

section beside rustc bench.beside
section bench '' bench.bench
section logs '' bench.logs
section texts '' bench.texts
section looks /usr/bin/time bench.looks
section workers '' bench.workers
section lua lua5.4 bench.lua
section instructions 'rustc valgrind' bench.instructions
section counts valgrind bench.texts --count
section spin 'spin gcc' bench.spin
section models 'spin gcc' bench.spin --models
section worlds /usr/bin/time bench.worlds
printf '\n== tables\n'
python3 -m bench.tables || status=1
exit "$status"
