# Completes the words of the programs in bash: source tools/completion/aps.bash
# In zsh aps.zsh reads this file too.

# _aps_offer WORD CANDIDATE..: completes WORD by the candidates that begin with it.
_aps_offer() {
    COMPREPLY=($(compgen -W "${*:2}" -- "$1"))
}

# _aps_at_file PREVIOUS: whether a file of a redirection is next. Zsh completes such a file itself.
_aps_at_file() {
    case $1 in
        '<' | '>' | '>>') compopt -o default && COMPREPLY=() ;;
        *) false ;;
    esac
}

# _aps_at_command: whether the word at the cursor is the first one behind the program.
_aps_at_command() {
    [ "$COMP_CWORD" -eq 1 ]
}

# _aps_command: the first word behind the program.
_aps_command() {
    local words="$*"
    words=${words#* }
    echo "${words%% *}"
}

# _aps_option PREVIOUS: the word before the cursor's, or the one before an equals sign.
_aps_option() {
    if [ "$1" = "=" ]; then
        echo "${COMP_WORDS[COMP_CWORD - 2]}"
    else
        echo "$1"
    fi
}

_apsim_options() {
    case $1 in
        solo) echo --report --limit ;;
        run) echo --report --limit --order ;;
        check) echo --limit --order ;;
        gen) echo --seed --cpus --partitions --ticks ;;
    esac
}

_apsim() {
    if _aps_at_file "$3"; then
        return
    fi
    if _aps_at_command; then
        _aps_offer "$2" solo run check admit upgrade gen
        return
    fi
    case $(_aps_option "$3") in
        --report) _aps_offer "$2" summary windows journal ;;
        --order) _aps_offer "$2" free fixed ;;
        --limit | --seed | --cpus | --partitions | --ticks) COMPREPLY=() ;;
        *) _aps_offer "$2" $(_apsim_options "$(_aps_command "${COMP_WORDS[@]}")") ;;
    esac
}

_apsview_options() {
    case $1 in
        explain) echo --thread --at --limit ;;
        csv | timeline | threads | usage) echo --from --to --limit ;;
        *) echo --limit ;;
    esac
}

_apsview() {
    if _aps_at_file "$3"; then
        return
    fi
    if _aps_at_command; then
        _aps_offer "$2" shares latency explain csv cycles timeline threads usage vcd gtkw trace
        return
    fi
    case $(_aps_option "$3") in
        --thread | --at | --from | --to | --limit) COMPREPLY=() ;;
        *) _aps_offer "$2" $(_apsview_options "$(_aps_command "${COMP_WORDS[@]}")") ;;
    esac
}

_prove() {
    _aps_offer "$2" apsim apsview --anew --tidy --help
}

# _aps_offer_options WORD OPTION..: completes an option. Where WORD is none, the shell completes a file.
_aps_offer_options() {
    COMPREPLY=()
    case $1 in
        -*) _aps_offer "$@" ;;
    esac
}

_apslab() {
    _aps_offer_options "$2" --port --runs --seconds --memory --programs --save --help
}

_apstry() {
    _aps_offer_options "$2" --vary --measure --require --least --heat --seconds --jobs --quick --tasks --commands \
        --no-head --scheduler --tls-ca-file --tls-cert --tls-key --insecure --help
}

_apsdiff() {
    _aps_offer_options "$2" --tolerance --limit --seconds --quick --tasks --help
}

complete -F _apsim apsim
complete -F _apsview apsview
complete -F _prove prove
complete -o default -F _apslab apslab
complete -o default -F _apstry apstry
complete -o default -F _apsdiff apsdiff
