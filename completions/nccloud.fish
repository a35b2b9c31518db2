# Completion of nccloud in fish: folders, options with their texts, commands, and the numbers of clouds.

# The words before the one that is completed which belong to no option: the clouds, the command, its arguments.
function __nccloud_words
    set -l option
    for word in (commandline -opc)[2..]
        if test -n "$option"
            set option
        else if contains -- $word --seed --budget --workers
            set option $word
        else if not string match -q -- '--*' $word
            echo $word
        end
    end
end

# Whether so many of these words stand before, the command being one of those given.
function __nccloud_after
    set -l words (__nccloud_words)
    test (count $words) = $argv[1]; and begin
        test (count $argv) = 1; or contains -- $words[2] $argv[2..]
    end
end

# The folders after the last comma, the list before it kept.
function __nccloud_folders
    set -l list (string match -r '^.*,' -- (commandline -ct))
    printf "$list%s\n" (__fish_complete_directories (string replace -r '^.*,' '' -- (commandline -ct)) '')
end

# The numbers of the clouds of the first word, but one that is given.
function __nccloud_numbers
    set -l words (__nccloud_words)
    for number in (seq 0 (math (count (string split , -- $words[1])) - 1))
        contains -- $number $words[3..]; or echo $number
    end
end

complete -c nccloud -f
complete -c nccloud -n '__nccloud_after 0' -a '(__nccloud_folders)'
complete -c nccloud -n 'not __nccloud_after 0' -l seed -x -d 'what codes are drawn with: 64 hexadecimal digits'
complete -c nccloud -n 'not __nccloud_after 0' -l budget -x -a '64 256 1024 4096' -d 'how many candidates for a code are looked at'
complete -c nccloud -n 'not __nccloud_after 0' -l workers -x -a '1 2 4 8 16' -d 'how many pieces and digests are worked on at once'
complete -c nccloud -n '__nccloud_after 1' -a put -d 'store standard input under a name'
complete -c nccloud -n '__nccloud_after 1' -a get -d 'write a file to standard output'
complete -c nccloud -n '__nccloud_after 1' -a stat -d 'tell the generation and length of a file'
complete -c nccloud -n '__nccloud_after 1' -a ls -d 'list all files'
complete -c nccloud -n '__nccloud_after 1' -a rm -d 'remove a file'
complete -c nccloud -n '__nccloud_after 1' -a repair -d 'make a cloud whole from one chunk of each other cloud'
complete -c nccloud -n '__nccloud_after 1' -a restore -d 'make one cloud or two whole from the files themselves'
complete -c nccloud -n '__nccloud_after 1' -a scrub -d 'tell what is not right, and write nothing'
complete -c nccloud -n '__nccloud_after 1' -a recover -d 'finish what was cut off'
complete -c nccloud -n '__nccloud_after 1' -a batch -d 'do the commands that stand in standard input'
complete -c nccloud -n '__nccloud_after 1' -a mill -d 'work on clouds in memory, and print a digest'
complete -c nccloud -n '__nccloud_after 2 repair restore' -a '(__nccloud_numbers)'
complete -c nccloud -n '__nccloud_after 3 restore' -a '(__nccloud_numbers)'
