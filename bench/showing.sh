# What the demo shows commands with. Who sources this has $program, $scratch, a folder for all files, and $failed, which becomes 1
# where something isn't as it is wanted.

# wrong TEXT: something isn't as it is wanted.
wrong() {
    echo "    WRONG: $1"
    failed=1
}

# new_clouds N: N new empty folders, and their list in $clouds.
new_clouds() {
    local number
    rm -rf "$scratch"/cloud*
    clouds=
    for number in $(seq "$1"); do
        mkdir "$scratch/cloud$number"
        clouds=$clouds${clouds:+,}$scratch/cloud$number
    done
}

# show WANTED MEANING INPUT WORD..: runs the program over $clouds on a file with these words; its output goes to $output, where
# one is given. Where it ends with another status than 0, it has to tell a fault in one line on standard error.
show() {
    local wanted=$1 meaning=$2 input=$3 status
    shift 3
    "$program" "$clouds" "$@" <"$input" >"${output:-$scratch/out}" 2>"$scratch/err"
    status=$?
    printf 'status %-3s %s\n' "$status" "$meaning"
    [ "$status" = "$wanted" ] || wrong "$wanted was wanted"
    sed 's/^/           /' "$scratch/err"
    if [ "$status" = 0 ]; then
        [ ! -s "$scratch/err" ] || wrong "it printed on standard error"
    else
        [ "$(grep -c '^nccloud: .' "$scratch/err") $(wc -l <"$scratch/err")" = "1 1" ] || wrong "its fault has no line"
    fi
}

# tells TEXT: whether the last command told exactly this fault.
tells() {
    printf 'nccloud: %s\n' "$1" | cmp -s - "$scratch/err" || wrong "another line was wanted: nccloud: $1"
}

# show_counting WANTED MEANING WORD..: runs the program with these words, which must succeed and read so many bytes and at most
# 100,000 more, which are frames, metadata and what the start of the program reads. The system counts them.
show_counting() {
    local wanted=$1 meaning=$2 count status
    shift 2
    count=$(python3 - "$scratch/out" "$program" "$clouds" "$@" <<'PYTHON'
import os, subprocess, sys

output, *words = sys.argv[1:]
with open(output, "wb") as sink:
    child = subprocess.Popen(words, stdin=subprocess.DEVNULL, stdout=sink)
    os.waitid(os.P_PID, child.pid, os.WEXITED | os.WNOWAIT)
    with open(f"/proc/{child.pid}/io") as counts:
        print(counts.readline().split()[1])
sys.exit(child.wait())
PYTHON
    )
    status=$?
    printf 'status %-3s %s\n' "$status" "$meaning: it read $count bytes"
    [ "$status" = 0 ] || wrong "0 was wanted"
    [ "$wanted" -le "$count" ] && [ "$count" -le $((wanted + 100000)) ] || wrong "it was to read little more than $wanted bytes"
}

# same FILE: whether the last command gave exactly this.
same() {
    if cmp -s "$1" "$scratch/out"; then echo "           the output is as it should be"; else wrong "other output"; fi
}

# says TEXT: whether it printed exactly these lines.
says() {
    printf '%s\n' "$1" >"$scratch/said"
    same "$scratch/said"
}

# plain_folders: the list of the folders that plain.py works on, one for each cloud.
plain_folders() {
    local folder folders=
    for folder in ${clouds//,/ }; do
        folders=$folders${folders:+,}$scratch/plain/${folder##*/}
    done
    echo "$folders"
}

# differ FOLDER: whether the clouds don't hold just what stands in the folders of the same names in this one.
differ() {
    local folder
    for folder in ${clouds//,/ }; do
        diff -r "$folder" "$1/${folder##*/}" >/dev/null || return 0
    done
    return 1
}

# plainly FILE NAME WORD..: whether the clouds hold just what plain.py makes of this file by these words.
plainly() {
    local folders file=$1 done=0
    shift
    folders=$(plain_folders)
    rm -rf "$scratch/plain"
    mkdir -p ${folders//,/ }
    python3 -B bench/plain.py "$folders" "$@" <"$file" || done=1
    if [ $done = 0 ] && ! differ "$scratch/plain"; then
        echo "           plain.py makes the same objects"
    else
        wrong "plain.py makes other objects"
    fi
}

# mend WANTED MEANING WORD..: shows `scrub` or `restore` by these words, and whether plain.py, on a copy of what the clouds held,
# ends with the same status, prints the same and leaves the same objects.
mend() {
    local wanted=$1 meaning=$2 command=$3 status
    shift 3
    keep plain
    show "$wanted" "$meaning" "$scratch/empty" "$command" "$@"
    python3 -B bench/plain.py "$command" "$(plain_folders)" "$@" >"$scratch/plain_out"
    status=$?
    if [ "$status" = "$wanted" ] && cmp -s "$scratch/plain_out" "$scratch/out" && ! differ "$scratch/plain"; then
        echo "           plain.py prints and leaves the same"
    else
        wrong "plain.py prints or leaves something else"
    fi
}

# keep PLACE: keeps a copy of what the clouds hold.
keep() {
    rm -rf "${scratch:?}/$1"
    mkdir "$scratch/$1"
    cp -r ${clouds//,/ } "$scratch/$1"
}

# kept PLACE: whether the clouds hold just what they held then.
kept() {
    if differ "$scratch/$1"; then
        wrong "the clouds hold something else"
    else
        echo "           the clouds hold what they held"
    fi
}
