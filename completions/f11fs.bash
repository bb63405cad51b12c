# Completes the words of f11fs in bash. docs/list_words writes this file from the help of the program.

# Prints the paths of an image that begin with WORD, nothing where there is no such image: _f11fs_paths PROGRAM IMAGE WORD [OPTION..]
_f11fs_paths() {
    local program=$1 image=$2 word=$3 folder='' begun=''
    shift 3
    case $word in
    *]*) folder=${word%]*}] ;;
    [[]*) begun=1 ;;
    */*) folder=${word%/*}/ ;;
    esac
    F11_NO_BUILD=1 "$program" "$@" "$image" ls ${folder:+"$folder"} 2>/dev/null </dev/null | awk -v folder="$folder" -v begun="$begun" '
    NF != 1 { next }
    { sub(/;.*/, "") }
    seen[$0]++ || folder == "" && $0 == "000000.DIR" { next }
    /[.]DIR$/ && folder !~ /]$/ {
        name = substr($0, 1, length($0) - 4)
        if (folder == "" && length(name) == 6 && name !~ /[^0-7]/) name = (substr(name, 1, 3) + 0) "," (substr(name, 4) + 0)
        print begun ? "[" name "]" : folder name "/"
        next
    }
    !begun { print folder $0 }'
}

# Sets the options of a command, or of the program where COMMAND is empty, and what its words are: _f11fs_of COMMAND
_f11fs_of() {
    case $1 in
    '') options='-f --commands -o --backup --break-links -n --force --json --stamp -u -q --keep-going --blocks --order -h --help -V --version' takes='' ;;
    ls) options='-l -R -i --json -u -q --blocks --order -h --help' takes='path' ;;
    find) options='--lost --deleted -l --json -u -q --blocks --order -h --help' takes='path' ;;
    stat) options='--json -u -q --blocks --order -h --help' takes='path' ;;
    cat) options='-t -b --raw -u -q --blocks --order -h --help' takes='path' ;;
    get) options='-t -b --raw -p -r --deleted --partial -o -n --force --json -u -q --blocks --order -h --help' takes='path host' ;;
    tar) options='-t -u -q --blocks --order -h --help' takes='path' ;;
    df) options='--json -q --blocks --order -h --help' takes='' ;;
    info) options='--json -q --blocks --order -h --help' takes='' ;;
    du) options='--top --json -q --blocks --order -h --help' takes='' ;;
    check) options='--all --json -q --blocks --order -h --help' takes='' ;;
    rescue) options='--text --scan --partial -n --json -q --blocks --order -h --help' takes='folder' ;;
    cmp) options='--all --json -u -q --blocks --order -h --help' takes='host' ;;
    put) options='-t -b --form --like --contiguous --no-contiguous --replace --owner -p -r --skip -o --backup --break-links -n --force --json --stamp -u -q --blocks --order -h --help' takes='host path' ;;
    untar) options='-o --backup --break-links -n --force --json --stamp -u -q --blocks --order -h --help' takes='host path' ;;
    cp) options='--from -r -a --next --contiguous --no-contiguous -o --backup --break-links -n --force --json --stamp -u -q --blocks --order -h --help' takes='path' ;;
    mv) options='-o --backup --break-links -n --force --json -u -q --blocks --order -h --help' takes='path' ;;
    rm) options='--entry --newest -o --backup --break-links -n --force --json -u -q --blocks --order -h --help' takes='path' ;;
    purge) options='-k -o --backup --break-links -n --force --json -u -q --blocks --order -h --help' takes='path' ;;
    mkdir) options='--names --owner -o --backup --break-links -n --force --json --stamp -u -q --blocks --order -h --help' takes='path' ;;
    rmdir) options='-o --backup --break-links -n --force --json -u -q --blocks --order -h --help' takes='path' ;;
    truncate) options='-o --backup --break-links -n --force --json -u -q --blocks --order -h --help' takes='path' ;;
    append) options='-o --backup --break-links -n --force --json -u -q --blocks --order -h --help' takes='path host' ;;
    chmod) options='-o --backup --break-links -n --force --json -u -q --blocks --order -h --help' takes='path' ;;
    chown) options='-o --backup --break-links -n --force --json -u -q --blocks --order -h --help' takes='path' ;;
    label) options='-o --backup --break-links -n --force --json -q --blocks --order -h --help' takes='' ;;
    repair) options='--into -o --backup --break-links -n --force --stamp -q --blocks --order -h --help' takes='' ;;
    init) options='--files --label -n --json --stamp -u --order -h --help' takes='size' ;;
    convert) options='--to --blocks-only -q --blocks --order -h --help' takes='host' ;;
    *) options='' takes='' ;;
    esac
}

# Sets what the value of an option is: _f11fs_value OPTION
_f11fs_value() {
    case $1 in
    -f | --commands | -o | --from) kind=host ;;
    --stamp | -u | --blocks | --order | --top | --form | --owner | -k | --names | --files | --label | --to) kind=none ;;
    --like | --into) kind=path ;;
    *) return 1 ;;
    esac
}

_f11fs() {
    local cur=${COMP_WORDS[COMP_CWORD]} at=1 word='' image='' command='' ended='' value='' kind='' options='' takes='' one=''
    local -a blocks=() found=()
    COMPREPLY=()
    while ((at < COMP_CWORD)); do
        word=${COMP_WORDS[at]} value=
        if [[ -z $ended && $word == -- ]]; then
            ended=1
        elif [[ -z $ended && $word == -?* ]]; then
            if _f11fs_value "$word"; then
                value=$kind
                ((at += 1))
                [[ ${COMP_WORDS[at]} != = ]] || ((at += 1))
                [[ $word != --blocks ]] || blocks=(--blocks "${COMP_WORDS[at]}")
            fi
        elif [[ -z $image ]]; then
            image=$word
        elif [[ -z $command ]]; then
            command=$word
        fi
        ((at += 1))
    done
    ((at > COMP_CWORD)) || value=
    cur=${cur#[\'\"]}
    cur=${cur//\\/}
    _f11fs_of "$command"
    if [[ -n $value ]]; then
        takes=$value
    elif [[ -z $ended && $cur == -* ]]; then
        mapfile -t COMPREPLY < <(compgen -W "$options" -- "$cur")
        return
    elif [[ -z $image ]]; then
        takes=host
    elif [[ -z $command ]]; then
        mapfile -t COMPREPLY < <(compgen -W 'ls find stat cat get tar df info du check rescue cmp put untar cp mv rm purge mkdir rmdir truncate append chmod chown label repair init convert' -- "$cur")
        return
    fi
    for one in $takes; do
        case $one in
        host) mapfile -t -O ${#COMPREPLY[@]} COMPREPLY < <(compgen -f -- "$cur") ;;
        folder) mapfile -t -O ${#COMPREPLY[@]} COMPREPLY < <(compgen -d -- "$cur") ;;
        size) mapfile -t -O ${#COMPREPLY[@]} COMPREPLY < <(compgen -W 'RX01 RX02 RX50 RK05 RL01 RL02 RK06 RK07 RM03 RP04 RP06 RM05 RA81' -- "${cur^^}") ;;
        path)
            image=${image//[\'\"\\]/}
            word=${COMP_WORDS[0]}
            mapfile -t found < <(_f11fs_paths "${word/#~\//$HOME/}" "${image/#~\//$HOME/}" "$cur" "${blocks[@]}")
            for word in "${found[@]}"; do
                [[ ${word^^} != "${cur^^}"* ]] || COMPREPLY+=("$word")
            done
            ;;
        esac
    done
    compopt -o filenames 2>/dev/null
    [[ ${#COMPREPLY[@]} -ne 1 || ${COMPREPLY[0]} != *[]/] ]] || compopt -o nospace 2>/dev/null
}

complete -F _f11fs f11fs
