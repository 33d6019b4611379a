# Completion of bash for bpfspec and bpfrun: `source tools/completion/bpfspec.bash`, or `./bpfspec install PREFIX`.

_bpfspec_words() {
    mapfile -t COMPREPLY < <(compgen -W "$1" -- "$current")
}

_bpfspec_files() {
    local names
    mapfile -t COMPREPLY < <(compgen -d -- "$current")
    mapfile -t names < <(compgen -f -X "$1" -- "$current")
    COMPREPLY+=("${names[@]}")
    compopt -o filenames
}

# Words after an option; fails where the word before isn't one that takes any.
_bpfspec_value() {
    case $1 in
    --test) _bpfspec_words "flow lrpd" ;;
    --way) _bpfspec_words "pays blocks" ;;
    --workers) _bpfspec_words "1 2 4 8 16" ;;
    --blocks) _bpfspec_words "1 4 16 64" ;;
    --load | --save | --page) _bpfspec_files "" ;;
    --arg | --limit | --only | --main) COMPREPLY=() ;;
    *) return 1 ;;
    esac
}

_bpfspec() {
    local current=${COMP_WORDS[COMP_CWORD]} command=${COMP_WORDS[1]-}
    COMPREPLY=()
    _bpfspec_value "${COMP_WORDS[COMP_CWORD - 1]}" && return
    if ((COMP_CWORD == 1)); then
        _bpfspec_words "verify order run replay asm disasm facts explain prove install library help"
        return
    fi
    case $command in
    verify) _bpfspec_words "--hex" ;;
    order) _bpfspec_words "--hex --arg" ;;
    run) _bpfspec_words "--hex --arg --workers --blocks --test --way --stats" ;;
    replay) _bpfspec_words "--hex --arg --test" ;;
    facts) _bpfspec_words "--hex --arg --test --states --all --grid" ;;
    explain) _bpfspec_words "--hex --arg --test --states --all --picture --json --sarif" ;;
    prove) _bpfspec_words "library" ;;
    install | library) _bpfspec_files "!*/" ;;
    esac
}

_bpfrun() {
    local current=${COMP_WORDS[COMP_CWORD]} command=${COMP_WORDS[1]-} common="--main --as-is"
    COMPREPLY=()
    _bpfspec_value "${COMP_WORDS[COMP_CWORD - 1]}" && return
    if ((COMP_CWORD == 1)); then
        _bpfspec_words "run verify explain unit --help"
    elif [[ $current != -* ]]; then
        _bpfspec_files "!*.[co]"
    else
        case $command in
        run) _bpfspec_words "$common --arg --only --load --save --workers --blocks --test --limit --json --page --dry-run" ;;
        verify) _bpfspec_words "$common --limit --json --page --dry-run" ;;
        explain) _bpfspec_words "$common --arg --load --test --states --all --json --page --dry-run" ;;
        unit) _bpfspec_words "$common --load" ;;
        esac
    fi
}

complete -F _bpfspec bpfspec ./bpfspec
complete -F _bpfrun bpfrun tools/bpfrun ./tools/bpfrun
