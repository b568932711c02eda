#!/bin/sh
# Asks the built program what it says of the modules in `tests/program/programs/*.rows`, of those that
# `tests/program/programs/made.sh` makes, of the source texts in `tests/program/programs/sources*.rows`, and of those
# that `tests/program/programs/made-sources.sh` makes, and compares, line for line. Where files of rows are named, it
# asks about these alone.
#
# A row is a line with a module's text and, right below it, the line that `x10clock check` answers to it: on standard
# output with status 0 where it begins with `accepted`, else on standard error with status 1, and then `x10clock run`
# answers the same. Below an accepted module there may be lines of what a run prints, with a comma where a line ends:
# `run: ` without an order and in the order `first`, `last: ` and `round: ` in these orders, and `every: ` in each of
# them; `rounds: ` by rounds (`--order greedy`), and `on 2: ` so on two processors. A line `args: ` with numbers gives `--arg` for each of them to the calls below it, up to the next such line or
# the next row. `not run: ` has the line that `run`, `replay` and `chart` answer with status 1, whatever their log
# holds. In the text, `\n`, `\t`, `\\` and `\0OOO` (a byte in octal) stand for themselves as with printf's %b, and `\c`
# alone for an empty text. Lines that begin with `#`, and empty ones, are between rows.
#
# In a file whose name begins with `sources` the texts are programs in the language, not modules. `x10clock compile`
# answers the same as `check` where that is a fault of the text (F1 to F15); below a row there may be `compile: ` and
# the module that it is compiled to.
set -eu
cd "$(dirname "$0")/../.."
. tests/harness.sh

fail() {
    echo "answers: $file, line $line: $*" >&2
    exit 1
}

# answers STATUS WORDS..: the program ends with this status on these words, with the text on standard input, and says
# what is wanted, on standard output where the status is 0, else on standard error, and nothing else.
answers() {
    wanted=$1
    shift
    case $wanted in
        0) told=out silent=err ;;
        *) told=err silent=out ;;
    esac
    status=0
    "$program" "$@" < "$work/text" > "$work/out" 2> "$work/err" || status=$?
    if [ "$status" != "$wanted" ] || ! cmp -s "$work/wanted" "$work/$told" || [ -s "$work/$silent" ]; then
        fail "$*: status $status: $(cat "$work/out" "$work/err" | head -c 500), not $(head -c 500 "$work/wanted")"
    fi
}

# row TEXT ANSWER: the program answers so to the program with this text, which is the one that is asked about from now
# on.
row() {
    given=
    printf '%b' "$1" > "$work/text"
    printf '%s\n' "$2" > "$work/wanted"
    case $2 in
        accepted*) answers 0 check $form - ;;
        *)
            answers 1 check $form -
            answers 1 run $form -
            case $2 in 'x10clock: F'*) answers 1 compile - ;; esac
            ;;
    esac
    rows=$((rows + 1))
}

# compiles MODULE: the text is compiled to this module.
compiles() {
    printf '%s\n' "$1" > "$work/wanted"
    answers 0 compile -
}

# prints PRINTED WORDS..: a run with these words prints this.
prints() {
    printf '%s\n' "$1" | tr , '\n' > "$work/wanted"
    shift
    answers 0 run $form $given "$@" -
    runs=$((runs + 1))
}

# refuses LINE: an accepted program isn't run, nor played again, with what its main is given. No log is read, so it may
# be any text.
refuses() {
    printf '%s\n' "$1" > "$work/wanted"
    printf 'no log\n' > "$work/log"
    answers 1 run $form $given -
    answers 1 run $form $given --order last -
    answers 1 replay $form $given - "$work/log"
    answers 1 chart $form $given - "$work/log"
    runs=$((runs + 4))
}

# give NUMBERS..: main is given these from now on.
give() {
    given=
    for number; do given="$given --arg=$number"; done
}

rows=0
runs=0

# asked FILE: all rows of a file are answered so.
asked() {
    file=$1
    case ${file##*/} in sources*) form= ;; *) form=--module ;; esac
    line=0
    while IFS= read -r text; do
        line=$((line + 1))
        case $text in
            '' | '#'*) ;;
            'compile: '*) compiles "${text#compile: }" ;;
            args:*) give ${text#args:} ;;
            'not run: '*) refuses "${text#not run: }" ;;
            'run: '*)
                prints "${text#run: }"
                prints "${text#run: }" --order first
                ;;
            'every: '*)
                prints "${text#every: }"
                for order in first last round; do prints "${text#every: }" --order "$order"; done
                ;;
            'last: '*) prints "${text#last: }" --order last ;;
            'round: '*) prints "${text#round: }" --order round ;;
            'rounds: '*) prints "${text#rounds: }" --order greedy ;;
            'on '[0-9]*': '*)
                processors=${text%%: *}
                prints "${text#*: }" --order greedy --processors "${processors#on }"
                ;;
            *)
                IFS= read -r answer || fail "no answer"
                line=$((line + 1))
                row "$text" "$answer"
                ;;
        esac
    done < "$file"
}

if [ $# -gt 0 ]; then
    for file; do asked "$file"; done
else
    sh tests/program/programs/made.sh > "$work/made.rows"
    sh tests/program/programs/made-sources.sh > "$work/sources-made.rows"
    for file in tests/program/programs/*.rows "$work/made.rows" "$work/sources-made.rows"; do
        asked "$file"
    done
fi
[ "$rows" -gt 0 ] || { echo "answers: no rows" >&2; exit 1; }
echo "answers: $rows programs and $runs runs of them, all answered so"
