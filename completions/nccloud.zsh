#compdef nccloud
# Completion of nccloud in zsh: folders, options with their texts, commands, and the numbers of clouds.

_nccloud_commands() {
    local -a commands=(
        'put:store standard input under a name'
        'get:write a file to standard output'
        'stat:tell the generation and length of a file'
        'ls:list all files'
        'rm:remove a file'
        'repair:make a cloud whole from one chunk of each other cloud'
        'restore:make one cloud or two whole from the files themselves'
        'scrub:tell what is not right, and write nothing'
        'recover:finish what was cut off'
        'batch:do the commands that stand in standard input'
        'mill:work on clouds in memory, and print a digest'
    )
    _describe command commands
}

# The numbers of the clouds of the first word, but one that is given.
_nccloud_numbers() {
    local -a folders=("${(@s:,:)line[1]}") numbers
    numbers=({0..$((${#folders} - 1))})
    compadd -- ${numbers:#$1}
}

# What stands behind the command.
_nccloud_first() {
    case $line[2] in
        repair|restore) _nccloud_numbers ;;
        *) _message 'no number' ;;
    esac
}

_nccloud_second() {
    case $line[2] in
        restore) _nccloud_numbers $line[3] ;;
        *) _message 'no more words' ;;
    esac
}

_nccloud() {
    local -a line
    local -A opt_args
    _arguments \
        '--seed=[what codes are drawn with]:64 hexadecimal digits: ' \
        '--budget=[how many candidates for a code are looked at]:number from 1 to 4096:(64 256 1024 4096)' \
        '--workers=[how many pieces and digests are worked on at once]:number from 1 to 16:(1 2 4 8 16)' \
        '1:clouds:_sequence -s , -n 10 _path_files -/' \
        '2:command:_nccloud_commands' \
        '3::argument:_nccloud_first' \
        '4::argument:_nccloud_second'
}

_nccloud "$@"
