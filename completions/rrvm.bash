# Completions of rrvm for bash: source this file, or put it as rrvm into a folder of bash-completion.
# shellcheck shell=bash

_rrvm_files() {
    mapfile -t COMPREPLY < <(compgen -f -- "$1")
    compopt -o filenames 2>/dev/null
}

_rrvm_words() {
    mapfile -t COMPREPLY < <(compgen -W "$1" -- "$2")
}

# The value of -icount: its keys in any order, each once; bash takes the part behind the last = as a word.
_rrvm_icount() {
    local whole=$1 word=$2 head key
    case ${whole##*,} in
        rr=*) _rrvm_words "record replay" "$word"; return ;;
        rrfile=*) _rrvm_files "$word"; return ;;
        shift=*) _rrvm_words "0 1 2 3 4 5 6 7 8 9 10" "$word"; return ;;
    esac
    compopt -o nospace 2>/dev/null
    head=${word%"${word##*,}"}
    COMPREPLY=()
    for key in shift= rr=record rr=replay rrfile=; do
        case ,$whole in *,"${key%%=*}"=*) continue ;; esac
        case $head$key in "$word"*) COMPREPLY+=("$head$key") ;; esac
    done
}

_rrvm() {
    local word=${COMP_WORDS[COMP_CWORD]} before='' whole='' at first=${COMP_WORDS[1]} used
    COMPREPLY=()
    # Join the parts between which bash cuts at = and :
    for ((at = COMP_CWORD; at > 1; at--)); do
        case ${COMP_WORDS[at]} in = | :) ;; *) case ${COMP_WORDS[at - 1]} in = | :) ;; *) break ;; esac ;; esac
    done
    for ((used = at; used <= COMP_CWORD; used++)); do whole+=${COMP_WORDS[used]}; done
    [ "$word" = "=" ] && word=''
    before=${COMP_WORDS[at - 1]}
    case $before in
        -icount) _rrvm_icount "$whole" "$word"; return ;;
        -bios) _rrvm_files "$word"; return ;;
        -m) _rrvm_words "1 2 4 8 16 32 64" "$word"; return ;;
        -budget | -slice) return ;;
    esac
    case $COMP_CWORD:$first in
        1:*) _rrvm_words "-icount -bios -m -budget -slice debug check events demo --help --version" "$word" ;;
        2:debug | 2:check | 2:events) _rrvm_files "$word" ;;
        3:debug | 3:check) _rrvm_words "-bios" "$word" ;;
        *:debug | *:check | *:events | *:demo | *:--help | *:--version) ;;
        *) _rrvm_words "-icount -bios -m -budget -slice" "$word" ;;
    esac
}

complete -F _rrvm rrvm
