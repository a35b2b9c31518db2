# Completion of nccloud in bash: folders, options with their texts, commands, and the numbers of clouds.

# The folder after the last comma of a list, the list before it kept.
_nccloud_folders() {
    local list=${1%"${1##*,}"}
    compopt -o nospace -o filenames
    mapfile -t COMPREPLY < <(compgen -d -P "$list" -- "${1##*,}")
}

# The numbers of the clouds of a list, but one that is given.
_nccloud_numbers() {
    local commas=${1//[^,]/} number
    for ((number = 0; number <= ${#commas}; number++)); do
        [ "$number" = "${2-}" ] || echo "$number"
    done
}

# What may stand where a command with so many words stands before: an option, a command, or a number.
_nccloud_words() {
    local commands='put get stat ls rm repair restore scrub recover batch mill'
    case $#:${1-} in
        0:) echo "$commands" ;;
        1:repair | 1:restore) _nccloud_numbers "$clouds" ;;
        2:restore) _nccloud_numbers "$clouds" "$2" ;;
    esac
}

_nccloud() {
    local options='--seed --budget --workers'
    local current=${COMP_WORDS[COMP_CWORD]} clouds=${COMP_WORDS[1]-} option= word
    local -a arguments=()
    COMPREPLY=()
    [ "$COMP_CWORD" -gt 1 ] || { _nccloud_folders "$current"; return; }
    # Bash takes `--budget=64` apart at its `=`. Each option is given once; after `--` there are none.
    for word in "${COMP_WORDS[@]:2:COMP_CWORD-2}"; do
        case $word in
            =) ;;
            --) [ -n "$options" ] && options= || arguments+=("$word") ;;
            *)
                if [ -n "$option" ]; then
                    option=
                elif [ -n "$options" ] && [[ " $options " = *" $word "* ]]; then
                    option=$word options=${options/$word/}
                else
                    arguments+=("$word")
                fi ;;
        esac
    done
    [ "$current" != = ] || current=
    case $option:$current in
        --workers:*) set -- {1..16} ;;
        --budget:*) set -- 64 256 1024 4096 ;;
        --seed:*) set -- ;;
        :-*) set -- $options ;;
        *) set -- $(_nccloud_words "${arguments[@]}") ;;
    esac
    mapfile -t COMPREPLY < <(compgen -W "$*" -- "$current")
}

complete -F _nccloud nccloud
