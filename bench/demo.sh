#!/usr/bin/env bash
# Shows what the program does today: builds it, runs it, and compares each exit status with the one that is wanted, and what it
# leaves in the folders with what plain.py, a program of its own, makes of the same.
set -u
cd "$(dirname "$0")/.."
program=crates/nccloud/out/nccloud
scratch=$(mktemp -d) || exit 1
trap 'rm -rf "$scratch"' EXIT
failed=0
. bench/showing.sh
. bench/mending.sh

echo "Proving and building (the first time takes minutes)."
(cd crates/nccloud && rt run -- a,b,c,d get </dev/null) >"$scratch/log" 2>&1
[ -x "$program" ] || { tail -20 "$scratch/log"; exit 1; }

big=$(find /usr/lib /usr/bin -type f -size +10M -size -60M -readable 2>/dev/null | sort | head -1)
[ -n "$big" ] || { big=$scratch/big; head -c 12000000 /dev/urandom >"$big"; }
head -c 67108864 /dev/urandom >"$scratch/longest"
(cat "$scratch/longest"; printf x) >"$scratch/too_long"
: >"$scratch/empty"
printf x >"$scratch/byte"
head -c 3000000 /dev/urandom >"$scratch/photos"
size=$(stat -c %s "$big")

for width in 4 7 10; do
    new_clouds "$width"
    show 0 "put of $big, $size bytes, on $width clouds" "$big" put report
    says "generation 1"
    plainly "$big" report
    show 0 "get of it" "$scratch/empty" get report
    same "$big"
    [ "$width" != 4 ] || (cd "$scratch" && ls -l cloud? | sed 's/^/           /')
    rm "$scratch"/cloud2/*
        show 0 "repair of a cloud that lost all its objects: from one chunk of each other cloud" "$scratch/empty" repair 1
    says "repaired 1"
    plainly "$big" report repaired 1
    rm "$scratch"/cloud1/*
    show 0 "repair of another one then" "$scratch/empty" repair 0
    says "repaired 1"
    plainly "$big" report repaired 1,0
    rm "$scratch"/cloud3/* "$scratch"/cloud$width/*
    show 0 "get of it after two clouds lost all their objects" "$scratch/empty" get report
    same "$big"
    show 10 "repair while another cloud is lost too, whose chunk it needs" "$scratch/empty" repair 2
    rm "$scratch"/cloud2/c-*
    show 5 "get of it after a third one lost its chunks: too few are good" "$scratch/empty" get report
    same "$scratch/empty"
    two_lost "$width"
done
each_state
reads_of_mending
refused_mending
new_clouds 4
show 0 "put of 3,000,000 bytes on 4 clouds: two chunks of 750,000 bytes on each" "$scratch/photos" put photos.db
says "generation 1"
rm "$scratch"/cloud3/*
show_counting 2250000 "repair of cloud 2, which lost all its objects: one chunk of each other cloud" repair 2
says "repaired 1"
rm "$scratch"/cloud1/* "$scratch"/cloud4/*
show 0 "get of it after two other clouds lost all their objects" "$scratch/empty" get photos.db
same "$scratch/photos"
new_clouds 4
show 0 "put of no bytes" "$scratch/empty" put empty
plainly "$scratch/empty" empty
show 0 "get of them" "$scratch/empty" get empty
same "$scratch/empty"
show 0 "put under the same name: a new version, and nothing is left of the old one" "$big" put empty
says "generation 2"
plainly "$big" empty 2
show 0 "stat of it" "$scratch/empty" stat empty
says "generation 2 length $size witnesses yes"
show 0 "ls" "$scratch/empty" ls
says "$size empty"
show 0 "get of it: the new version" "$scratch/empty" get empty
same "$big"
rm "$scratch"/cloud2/*
show 0 "put of a third version, after a cloud lost all its objects" bench/demo.sh put empty
says "generation 3"
rm "$scratch"/cloud1/* "$scratch"/cloud3/*
show 0 "get of it after two other clouds lost theirs: the one that was lost before has it whole" "$scratch/empty" get empty
same bench/demo.sh
show 0 "put of a byte" "$scratch/byte" put byte
output=/dev/full show 9 "get of it to a full device: the output failed" "$scratch/empty" get byte
tells "the output failed"
output=/dev/full show 9 "put of a byte whose answer goes to a full device: the output failed" "$scratch/byte" put told
show 0 "get of it: the file was stored" "$scratch/empty" get told
same "$scratch/byte"
show 0 "put of 64 MiB, the longest file" "$scratch/longest" put longest
show 0 "get of it" "$scratch/empty" get longest
same "$scratch/longest"
show 7 "put of 64 MiB and one byte: too long, nothing written" "$scratch/too_long" put longer
tells "the input is longer than 67108864 bytes"
show 3 "get of it: there is no such file" "$scratch/empty" get longer
tells "no such file"
show 8 "put of a folder as input: the read failed" / put folder
tells "the input failed"
show 0 "rm of it" "$scratch/empty" rm told
show 3 "rm of it again: there is no such file" "$scratch/empty" rm told
show 3 "stat of it" "$scratch/empty" stat told
show 0 "ls: the files that are there" "$scratch/empty" ls
says "$(printf '%s\n' "1 byte" "$(stat -c %s bench/demo.sh) empty" "67108864 longest")"
show 0 "recover: all names are at rest, the removed one too" "$scratch/empty" recover
says "settled 4"
show 2 "no words but the clouds: no command" "$scratch/empty"
show 2 "put without a name: no command" "$scratch/empty" put
show 2 "repair of a cloud that isn't there: no command" "$scratch/empty" repair 4
tells "usage: nccloud CLOUDS [--seed HEX64] [--budget N] [--workers N] COMMAND [ARGUMENT]..."
show 2 "an unknown word: no command" "$scratch/empty" stow empty
show 2 "put of an empty name: no name" "$scratch/empty" put ""
tells "the name is empty"
show 2 "put of a name with a line feed: no name" "$scratch/empty" put $'a\nb'
tells "the name has a control byte at 1"
show 2 "put of a name of 101 letters: no name" "$scratch/empty" put "$(printf 'a%.0s' {1..101})"
tells "the name has 101 bytes, at most 100"
cp "$scratch"/cloud2/m-656d707479-1 "$scratch"/other
rm "$scratch"/cloud?/m-656d707479-1
mv "$scratch"/other "$scratch"/cloud1/m-656d707479-0
show 11 "get where the only metadata is that of another cloud" "$scratch/empty" get empty
tells "cloud 0 holds objects of cloud 1 of 4"
rmdir "$scratch/cloud4" 2>/dev/null || rm -r "$scratch/cloud4"
show 0 "get where a folder is gone: a cloud failed, and isn't needed" "$scratch/empty" get longest
same "$scratch/longest"
rm -r "$scratch/cloud1"
show 0 "get where two are gone" "$scratch/empty" get longest
same "$scratch/longest"
show 4 "put where a folder is gone: a cloud failed" "$scratch/byte" put byte
tells "cloud 0 failed"
rm -r "$scratch/cloud3"
show 4 "get where three are gone" "$scratch/empty" get longest
clouds=$scratch/cloud1,$scratch/cloud2,$scratch/cloud3
show 2 "three clouds: too few" "$scratch/empty" get longest
tells "width 3 is not 4 to 10"
new_clouds 4
show 0 "put of a byte" "$scratch/byte" put byte
says "generation 1"
show 0 "rm of it: what is left says that it was removed" "$scratch/empty" rm byte
says "generation 2"
plainly "$scratch/empty" byte 2 removed
printf '%s\n' 'put a note 6162' 'get a note' 'rm a note' 'get a note' 'ls' >"$scratch/lines"
show 3 "batch of five lines, the fourth of which finds no file" "$scratch/lines" batch
says "$(printf '%s\n' "generation 1" 6162 "generation 2")"
tells "line 4: no such file"
new_clouds 4
show 0 "put of a name that begins with a dash, with options" "$scratch/byte" --workers 4 put --budget=4096 -- -x
says "generation 1"
plainly "$scratch/byte" -x
show 0 "get of it" "$scratch/empty" get -- -x
same "$scratch/byte"
show 2 "the same without dashes in between: no command" "$scratch/empty" get -x
clouds=a,b,c,d show 0 "mill, which needs no folders" "$scratch/empty" mill 7
same crates/nccloud/stdout
(ulimit -v 60000; show 1 "put where 60 MB are all the memory: none was found" "$scratch/empty" put empty; exit $failed) || failed=1
tells "out of memory"
exit $failed
