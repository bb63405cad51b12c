# Completes the words of f11 in bash. docs/list_words writes this file from the help of the program.

_f11() {
    local cur=${COMP_WORDS[COMP_CWORD]} prev=${COMP_WORDS[COMP_CWORD - 1]}
    COMPREPLY=()
    cur=${cur#[\'\"]}
    cur=${cur//\\/}
    [[ $prev != = ]] || prev=${COMP_WORDS[COMP_CWORD - 2]}
    case $prev in
    --limit|--stamp|--header) return ;;
    --out) ;;
    *)
        if [[ $cur == -* ]]; then
            mapfile -t COMPREPLY < <(compgen -W '--limit --stamp --out --header -h --help -V --version' -- "$cur")
            return
        fi
        ;;
    esac
    mapfile -t COMPREPLY < <(compgen -f -- "$cur")
    compopt -o filenames 2>/dev/null
}

complete -F _f11 f11
