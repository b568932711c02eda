# Completions of x10clock 1.5.0 for bash, which dist/manual.py writes. Bash finds them in
# ~/.local/share/bash-completion/completions, as x10clock.
_x10clock() {
    local word=${COMP_WORDS[COMP_CWORD]} before=${COMP_WORDS[COMP_CWORD - 1]} command='' words='' at
    # `--order=last` is three words here.
    if [[ $word == = ]]; then
        word=''
    elif [[ $before == = ]]; then
        before=${COMP_WORDS[COMP_CWORD - 2]}
    fi
    for ((at = 1; at < COMP_CWORD; at++)); do
        if [[ ${COMP_WORDS[at]} != -* ]]; then
            command=${COMP_WORDS[at]}
            break
        fi
    done
    COMPREPLY=()
    case "$command $before" in
        "run --order") mapfile -t COMPREPLY < <(compgen -W "first last round random greedy ask" -- "$word"); return ;;
        "run --seed") return ;;
        "run --runs") return ;;
        "run --processors") return ;;
        "run --workers") return ;;
        "run --log") compopt -o default; return ;;
        "run --arg") return ;;
        "outcomes --limit") return ;;
        "outcomes --pick") return ;;
        "outcomes --log") compopt -o default; return ;;
        "outcomes --expect") compopt -o default; return ;;
        "outcomes --arg") return ;;
        "races --arg") return ;;
        "replay --arg") return ;;
        "chart --arg") return ;;
        "events --arg") return ;;
        "lanes --arg") return ;;
        "lanes --from") return ;;
        "lanes --to") return ;;
        "page --outcome") return ;;
        "page --limit") return ;;
        "page --arg") return ;;
        "page --from") return ;;
        "page --to") return ;;
        "where --arg") return ;;
        "where --at") return ;;
        "span --arg") return ;;
        "why --arg") return ;;
    esac
    case $command in
        '') words='check explain compile listing run outcomes races replay chart events lanes page where span why help -h --help -V --version' ;;
        check) words='--module --json -h --help' ;;
        explain) words='--module --json -h --help' ;;
        compile) words='-h --help' ;;
        listing) words='--module -h --help' ;;
        run) words='--module --order --seed --runs --processors --workers --log --arg --json -h --help' ;;
        outcomes) words='--module --limit --pick --log --sets --count --expect --arg --json -h --help' ;;
        races) words='--module --arg --json -h --help' ;;
        replay) words='--module --arg -h --help' ;;
        chart) words='--module --arg -h --help' ;;
        events) words='--module --arg --json -h --help' ;;
        lanes) words='--module --arg --from --to --svg --path --rounds -h --help' ;;
        page) words='--module --outcome --limit --arg --from --to --path -h --help' ;;
        where) words='--module --arg --at --json -h --help' ;;
        span) words='--module --arg --json -h --help' ;;
        why) words='--module --arg -h --help' ;;
        help) words='check explain compile listing run outcomes races replay chart events lanes page where span why help' ;;
    esac
    if [[ -z $command || $command == help || $word == -* ]]; then
        mapfile -t COMPREPLY < <(compgen -W "$words" -- "$word")
    else
        compopt -o default
    fi
}
complete -F _x10clock x10clock
