# Bash completion for subttx and for the tools that are installed with it. dev/make-pages writes the
# parts between `made` and `end`.
# tools/install installs this file for bash. To use it without installing, source this file.

# Complete the word $2 from the list $1.
_subttx_words() {
    local IFS=$' \t\n'
    mapfile -t COMPREPLY < <(compgen -W "$1" -- "$2")
}

_subttx_files() {
    compopt -o filenames 2>/dev/null
    mapfile -t COMPREPLY < <(compgen -f -- "$1")
}

# Complete the value of option $1, of which $2 is typed. Return 1 if the option takes no such value.
_subttx_value() {
    case $1 in
# made: values
        --option) _subttx_words 'english german swedish italian french spanish czech polish turkish croatian romanian estonian lithuanian' "$2" ;;
        --receiver) _subttx_words 'blank keep drop anew' "$2" ;;
        --packet-size) _subttx_words '188 192 204' "$2" ;;
        --at | --breaks | --every | --every-seconds | --flip | --free | --from | --jobs | \
            --late | --layout | --length | --limit | --line | --lose | --margin | --max-age | \
            --on-result | --origin | --pace | --page | --pause | --pes | --pid | \
            --reference-start | --settled | --skip | --start | --to | --within)
            COMPREPLY=()
            ;;
# end
        *) return 1 ;;
    esac
}

_subttx() {
    local word=${COMP_WORDS[COMP_CWORD]} before=${COMP_WORDS[COMP_CWORD - 1]}
    local command='' at options
# made: commands
    local commands='check schedule listen extract show normal packets packet survey'
# end
    for ((at = 1; at < COMP_CWORD; at++)); do
        if [[ " $commands " == *" ${COMP_WORDS[at]} "* ]]; then
            command=${COMP_WORDS[at]}
            break
        fi
    done
    case $command in
        '')
            _subttx_words "$commands" "$word"
            return
            ;;
# made: options
        check) options='--page --every --origin --option --layout --open --from --to --pace
            --keeping --complete --within --all --pid --packet-size --pes' ;;
        schedule) options='--page --every --origin --option --serial --layout --open --from --to' ;;
        listen) options='--page --origin --complete --within --at --skip --flip --lose --receiver
            --pid --packet-size --pes' ;;
        extract) options='--pid --packet-size' ;;
        packets) options='--pid --packet-size --pes' ;;
        survey) options='--page --pid --packet-size' ;;
# end
        *) options= ;;
    esac
    _subttx_value "$before" "$word" && return
    case $word in
        -*) _subttx_words "$options" "$word" ;;
        *) _subttx_files "$word" ;;
    esac
}

# Complete the options that the tool's --help lists. subttx-air also has commands.
_subttx_tool() {
    local word=${COMP_WORDS[COMP_CWORD]} before=${COMP_WORDS[COMP_CWORD - 1]}
    local command=()
    if [[ $1 == *air ]]; then
        if ((COMP_CWORD == 1)); then
            _subttx_words 'record judge status --help --version' "$word"
            return
        fi
        command=("${COMP_WORDS[1]}")
    fi
    _subttx_value "$before" "$word" && return
    case $word in
        -*) _subttx_words "$("$1" "${command[@]}" --help 2>/dev/null |
            grep -oE '(^|[ ,[])--?[a-z][a-z-]*' | tr -d ' ,[' | sort -u)" "$word" ;;
        *) _subttx_files "$word" ;;
    esac
}

complete -F _subttx subttx
complete -F _subttx_tool subttx-qc subttx-air subttx-read
