# What the scripts of the shell share, each of which reads it at the top of the repository: `program`, the program that
# is asked, which is what `--program PATH` names before all other words, else what X10CLOCK names, else the built one;
# and `work`, a folder that goes away at the end.
program=${X10CLOCK:-crates/x10clock/out/x10clock}
if [ "${1:-}" = --program ]; then
    program=$2
    shift 2
fi
case $program in /*) ;; *) program=$PWD/$program ;; esac
[ -x "$program" ] || (cd crates/x10clock && rt run -- run --module - < stdin > /dev/null)
work=$(mktemp -d)
trap 'rm -rf "$work"' EXIT
