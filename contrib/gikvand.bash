# Completion of the words of gikvand, venued, venue-replay, venue-events and gikvand-edge, for bash. As a package has it, it is loaded
# with the first of these words; else: source contrib/gikvand.bash.
# shellcheck shell=bash

_gikvand_members=(C1 C2 C3 C4 C5 C6 C7 C8)

# made by dev/pages --write: what the commands of gikvand take
declare -gA _gikvand_options=(
    [verify]="--symbols --edge"
    [reports]="--after --symbols --edge --csv --json"
    [trades]="--after --symbols --edge --csv --json"
    [follow]="--once"
    [audit]="--check"
    [why]="--symbols"
    [watch]="--prometheus --quick --symbols"
    [board]="--feed --password-file --ca --port --symbols"
    [trade]="--port --member --journal --symbols --fix"
    [demo]="--keep"
    [day]=""
    [store-contract]="--machine --folder --cut --join --kill --start --stay --rounds --port"
    [provenance]="--sources"
)
_gikvand_valued=" --after --ca --cut --edge --feed --folder --join --journal --keep --kill --machine --member \
--password-file --port --rounds --sources --start --stay --symbols "
_gikvand_filed=" --ca --edge --folder --journal --keep --password-file --sources "
# end of that

# Puts the words up to the cursor into `words`, as the program gets them: bash has cut them at each =.
_gikvand_words() {
    local at
    words=()
    for ((at = 0; at <= COMP_CWORD; at++)); do
        if ((at > 0)) && [[ ${COMP_WORDS[at]} == "=" || ${COMP_WORDS[at - 1]} == "=" ]]; then
            words[-1]+=${COMP_WORDS[at]}
        else
            words+=("${COMP_WORDS[at]}")
        fi
    done
}

# Answers what begins like the first word, of all the others.
_gikvand_of() {
    local begun=$1
    shift
    mapfile -t COMPREPLY < <(compgen -W "$*" -- "$begun")
}

# Answers the files that begin so.
_gikvand_files() {
    compopt -o filenames 2>/dev/null
    mapfile -t COMPREPLY < <(compgen -f -- "$1")
}

# Answers the symbols that a journal has, and that aren't among the words behind it. What is no symbol is passed over, as bash
# would do what such a word says.
_gikvand_symbols() {
    local begun=$1 journal=$2 symbol found=() left=()
    shift 2
    [[ -f $journal.symbols && -r $journal.symbols ]] || return 0
    read -r -n 1000 -a found <"$journal.symbols"
    for symbol in "${found[@]}"; do
        [[ $symbol =~ ^[A-Z0-9]{1,8}$ && " $* " != *" $symbol "* ]] && left+=("$symbol")
    done
    _gikvand_of "$begun" "${left[@]}"
}

# Answers the words of `gikvand trade`, of which these stand there: a request.
_gikvand_request() {
    local begun=$1 journal=$2
    shift 2
    case $#:${1-} in
        0:) _gikvand_of "$begun" buy sell cancel replace orders ;;
        2:buy | 2:sell) _gikvand_symbols "$begun" "$journal" ;;
        3:buy | 3:sell) _gikvand_of "$begun" market ;;
        4:buy | 4:sell) _gikvand_of "$begun" ioc fok ;;
    esac
}

# Answers what may stand behind these words of a command that are no options.
_gikvand_place() {
    local command=$1 begun=$2 journal=$3
    shift 3
    case $command:$# in
        trade:*) _gikvand_request "$begun" "$journal" "$@" ;;
        demo:* | store-contract:*) ;;
        *:0 | follow:1 | audit:1 | provenance:*) _gikvand_files "$begun" ;;
        reports:1) _gikvand_of "$begun" "${_gikvand_members[@]}" ;;
        verify:*)
            compopt -o nospace 2>/dev/null
            _gikvand_of "$begun" "${_gikvand_members[@]/%/=}"
            ;;
        day:*) _gikvand_symbols "$begun" "$1" "${@:2}" ;;
    esac
    return 0
}

_gikvand() {
    local words at given=() journal=trade.journal
    COMPREPLY=()
    _gikvand_words
    local begun=${words[-1]} command=${words[1]-} before=${words[-2]}
    if ((${#words[@]} == 2)); then
        _gikvand_of "$begun" "${!_gikvand_options[@]}" --help --version
        return
    fi
    for ((at = 2; at < ${#words[@]} - 1; at++)); do
        case ${words[at]} in
            --journal) journal=${words[++at]} ;;
            --journal=*) journal=${words[at]#*=} ;;
            -*) [[ $_gikvand_valued == *" ${words[at]} "* ]] && ((at += 1)) ;;
            *) given+=("${words[at]}") ;;
        esac
    done
    if [[ $begun == --*=* && $_gikvand_valued == *" ${begun%%=*} "* ]]; then
        before=${begun%%=*} begun=${begun#*=}
    fi
    if [[ $before == --member ]]; then
        _gikvand_of "$begun" 1 2 3 4 5 6 7 8
    elif [[ $_gikvand_filed == *" $before "* ]]; then
        _gikvand_files "$begun"
    elif [[ $_gikvand_valued == *" $before "* ]]; then
        return
    elif [[ $begun == -* ]]; then
        _gikvand_of "$begun" "${_gikvand_options[$command]-}" --help
    elif [[ $begun == *=* ]]; then
        _gikvand_files "${begun#*=}"
    else
        _gikvand_place "$command" "$begun" "$journal" "${given[@]}"
    fi
}

_venued() {
    local words
    COMPREPLY=()
    _gikvand_words
    local begun=${words[-1]}
    case ${#words[@]}:${words[1]} in
        2:*) _gikvand_of "$begun" - ;;
        3:*) _gikvand_files "$begun" ;;
        4:-) _gikvand_of "$begun" 1 ;;
        4:*) _gikvand_of "$begun" 1 2 3 4 5 6 7 8 ;;
        *) _gikvand_symbols "$begun" "${words[2]}" "${words[@]:4:${#words[@]}-5}" ;;
    esac
}

_venue_replay() {
    local words
    COMPREPLY=()
    _gikvand_words
    local begun=${words[-1]}
    case ${#words[@]}:${words[2]-} in
        2:*) _gikvand_files "$begun" ;;
        3:*) _gikvand_of "$begun" book "${_gikvand_members[@]}" snapshot check carry ;;
        4:carry) _gikvand_files "$begun" ;;
        *:carry) ;;
        *) _gikvand_symbols "$begun" "${words[1]}" "${words[@]:3:${#words[@]}-4}" ;;
    esac
}

_venue_events() {
    local words
    COMPREPLY=()
    _gikvand_words
    local begun=${words[-1]}
    case ${#words[@]}:${words[3]-} in
        2:*) _gikvand_files "$begun" ;;
        3:*) _gikvand_of "$begun" once follow ;;
        4:-*) _gikvand_of "$begun" --after ;;
        5:--after) ;;
        *:--after) _gikvand_symbols "$begun" "${words[1]}" "${words[@]:5:${#words[@]}-6}" ;;
        *) _gikvand_symbols "$begun" "${words[1]}" "${words[@]:3:${#words[@]}-4}" ;;
    esac
}

# Answers what may stand behind these words to processes of the edge that run.
_gikvand_switch() {
    local begun=$1
    shift
    case $#:$1 in
        1:halt) ;;
        1:*) _gikvand_of "$begun" all "${_gikvand_members[@]}" ;;
        *) _gikvand_files "$begun" ;;
    esac
}

_gikvand_edge() {
    local words options="--all --member" verbs=""
    COMPREPLY=()
    _gikvand_words
    local begun=${words[-1]} given=("${words[@]:1:${#words[@]}-2}")
    if [[ ${given[0]-} == --check ]]; then
        given=("${given[@]:1}")
    else
        options+=" --check --help --version"
        verbs="stop resume cancel halt status numbers"
    fi
    if [[ ${#given[@]} -gt 0 && " $verbs " == *" ${given[0]} "* ]]; then
        _gikvand_switch "$begun" "${given[@]}"
        return
    fi
    case ${#given[@]}:${given[0]-}:$begun in
        0::-*) _gikvand_of "$begun" "$options" ;;
        1:--member:*) _gikvand_of "$begun" "${_gikvand_members[@]}" ;;
        0::*)
            local found=()
            _gikvand_of "$begun" "$verbs"
            found=("${COMPREPLY[@]}")
            _gikvand_files "$begun"
            COMPREPLY+=("${found[@]}")
            ;;
        1:--all:* | 2:--member:*) _gikvand_files "$begun" ;;
    esac
}

complete -F _gikvand gikvand
complete -F _venued venued
complete -F _venue_replay venue-replay
complete -F _venue_events venue-events
complete -F _gikvand_edge gikvand-edge
