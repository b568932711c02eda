#!/bin/sh
# Plays transcripts of the built program again, and compares them line for line: what `examples/*.txt` tell of the
# programs beside them, and what `tests/program/words.txt` tells of the command line,
# `tests/program/explained/explain.txt` of what is refused, `tests/program/logs.txt` of logs, and
# `tests/program/workers.txt` of runs by workers that print the same whoever comes first.
#
# A transcript has, for each call, a line `$ x10clock WORDS`, as a shell takes it, then what goes to standard output,
# then what goes to standard error, each line of which begins with `! `, and, where it isn't 0, the status. Standard
# input is empty. The calls of a transcript are made one after another in a copy of its folder, where they may leave
# files. With `--write` the transcripts are written anew. Where files are named, only these are played.
set -eu
cd "$(dirname "$0")/../.."
. tests/harness.sh

# said LINE: what comes of the call in this line of a transcript.
said() {
    status=0
    eval "\"\$program\"${1#\$ x10clock}" < /dev/null > "$work/out" 2> "$work/err" || status=$?
    printf '%s\n' "$1"
    cat "$work/out"
    sed 's/^/! /' "$work/err"
    [ "$status" = 0 ] || echo "(status $status)"
}

# played FILE: the transcript again.
played() {
    rm -rf "$work/here"
    cp -R "$(dirname "$1")" "$work/here"
    grep '^\$ x10clock' "$1" | while IFS= read -r line; do
        (cd "$work/here" && said "$line")
    done
}

write=no
if [ "${1:-}" = --write ]; then
    write=yes
    shift
fi
[ $# -gt 0 ] || set -- tests/program/words.txt tests/program/logs.txt tests/program/workers.txt \
    tests/program/explained/explain.txt examples/*.txt
count=0
for file; do
    played "$file" > "$work/played"
    if [ "$write" = yes ]; then
        cp "$work/played" "$file"
    else
        diff "$file" "$work/played" || { echo "transcripts: $file" >&2; exit 1; }
    fi
    count=$((count + $(grep -c '^\$ x10clock' "$file")))
done
[ "$count" -gt 0 ] || { echo "transcripts: none" >&2; exit 1; }
echo "transcripts: $count calls, all answered so"
