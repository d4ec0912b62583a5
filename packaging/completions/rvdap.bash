# Completion of rvdap for bash. Its place: share/bash-completion/completions/rvdap, below /usr, /usr/local or ~/.local.
_rvdap() {
    local word=${COMP_WORDS[COMP_CWORD]} before=${COMP_WORDS[COMP_CWORD - 1]} command="" words
    ((COMP_CWORD > 1)) && command=${COMP_WORDS[1]}
    case $before in
        --program) _rvdap_programs; return ;;
        -x | --commands) mapfile -t COMPREPLY < <(compgen -f -- "$word"); return ;;
        --record) mapfile -t COMPREPLY < <(compgen -d -- "$word"); return ;;
        --from | --to) mapfile -t COMPREPLY < <(compgen -W '1' -- "$word"); return ;;
        --listen) mapfile -t COMPREPLY < <(compgen -W '127.0.0.1:4711' -- "$word"); return ;;
        --memory) mapfile -t COMPREPLY < <(compgen -W '4 64 1024 4096 16384' -- "$word"); return ;;
        --limit | --output-limit) mapfile -t COMPREPLY < <(compgen -W '1000000' -- "$word"); return ;;
        --trace) mapfile -t COMPREPLY < <(compgen -W '20' -- "$word"); return ;;
    esac
    case $command in
        run) words="--memory --limit --output-limit --count --registers --trace --help -h" ;;
        debug) words="--memory --commands -x --help -h" ;;
        check | labels) words="--json --help -h" ;;
        replay) words="--from --to --facts --help -h" ;;
        convert | asm | watch) words="--help -h" ;;
        "") words="run debug check labels convert asm watch replay --memory --listen --program --once --verbose --record --help -h --version -V" ;;
        *) words="--memory --listen --program --once --verbose --record" ;;
    esac
    case $command in
        run | debug | check | labels | convert | asm | watch | replay) [[ $word != -* ]] && { _rvdap_file "$command"; return; } ;;
    esac
    mapfile -t COMPREPLY < <(compgen -W "$words" -- "$word")
}
# The file of a command, where it has none yet or takes more.
_rvdap_file() {
    local place
    for ((place = 2; place < COMP_CWORD; place++)); do
        case ${COMP_WORDS[place]} in
            --memory | --limit | --output-limit | --trace | --commands | -x | --from | --to) ((place++)) ;;
            -*) ;;
            *) [[ $1 == check || $1 == run ]] || return ;;
        esac
    done
    if [[ $1 == watch || $1 == replay ]]; then
        mapfile -t COMPREPLY < <(compgen -f -- "$word")
    else
        _rvdap_programs
    fi
}
# Files of assembly, and folders.
_rvdap_programs() {
    mapfile -t COMPREPLY < <(compgen -f -X '!*.[sS]' -- "$word"; compgen -d -- "$word")
}
complete -o filenames -F _rvdap rvdap
