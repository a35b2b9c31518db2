# The part of the demo that damages clouds, lets the program tell what isn't right, and restores them. demo.sh sources it.

# lose CLOUD..: these clouds lose all their objects. Clouds are counted from 0, folders from 1.
lose() {
    local cloud
    for cloud in "$@"; do
        rm -f "$scratch"/cloud$((cloud + 1))/*
    done
}

# two_lost WIDTH: one cloud is lost and another one's chunks are broken; then two are lost; then three.
two_lost() {
    local width=$1 last=$(($1 - 1))
    new_clouds "$width"
    show 0 "put of $big, $size bytes, on $width clouds" "$big" put report
    show 0 "put of another file" bench/demo.sh put notes
    show 0 "put of a third" "$scratch/byte" put byte
    show 0 "rm of the third" "$scratch/empty" rm byte
    keep whole
    mend 0 "scrub: all is right" scrub
    same "$scratch/empty"
    lose 1
    truncate -s -1 "$scratch/cloud$width"/c-*
    mend 0 "scrub after cloud 1 lost all its objects, and the chunks of cloud $last their last bytes" scrub
    [ "$width" != 4 ] || sed 's/^/           /' "$scratch/out"
    show 10 "repair of cloud 1: it needs a chunk of cloud $last" "$scratch/empty" repair 1
    mend 0 "restore of both, from the file that the others give" restore 1 "$last"
    says "restored 8"
    mend 0 "scrub: all is right again" scrub
    same "$scratch/empty"
    kept whole
    lose 0 2
    mend 0 "restore of two clouds that lost all their objects" restore 2 0
    says "restored 8"
    kept whole
    mend 0 "restore of two clouds on which all is right: nothing is written" restore 0 1
    says "restored 0"
    kept whole
    lose 0 1 2
    mend 5 "restore of two while a third one is lost: too few are good" restore 0 1
    same "$scratch/empty"
}

# each_state: a part in each state, and how they are mended.
each_state() {
    local key=766f7465
    head -c 1000 bench/demo.sh >"$scratch/first"
    tail -c 1000 bench/demo.sh >"$scratch/third"
    new_clouds 4
    show 0 "put of 1000 bytes" "$scratch/first" put vote
    keep of_1
    show 0 "put of a second version" "$scratch/third" put vote
    cp "$scratch/of_1/cloud1/m-$key-1" "$scratch/cloud1/m-$key-1"
    rm "$scratch/cloud1/m-$key-0"
    mend 0 "scrub where cloud 0 has the first version's metadata alone" scrub
    says "cloud 0 meta missing vote"
    show 0 "recover: it gets the second one's" "$scratch/empty" recover
    says "settled 1"
    mend 0 "scrub: all is right" scrub
    same "$scratch/empty"
    show 0 "put of a third version" "$scratch/third" put vote
    keep of_3
    cp "$scratch/of_1/cloud1/m-$key-1" "$scratch/cloud1"
    cp "$scratch/of_1/cloud2/c-$key-0-0" "$scratch/cloud2"
    rm "$scratch/cloud3/c-$key-0-1"
    printf x >>"$scratch/cloud4/m-$key-1"
    mend 0 "scrub where two objects are those of the first version, one is gone and one is longer" scrub
    says "cloud 0 meta old vote
cloud 1 chunk 0 changed vote
cloud 2 chunk 1 missing vote
cloud 3 meta broken vote"
    mend 0 "restore of the two clouds with chunks that aren't good: all clouds get the third version's metadata" restore 1 2
    says "restored 2"
    mend 0 "scrub: all is right" scrub
    same "$scratch/empty"
    kept of_3
}

# reads_of_mending: how much restore and scrub read of a file of 3,000,000 bytes, whose eight chunks have 750,000 each.
reads_of_mending() {
    new_clouds 4
    show 0 "put of 3,000,000 bytes on 4 clouds" "$scratch/photos" put photos.db
    keep whole
    lose 2
    show_counting 3000000 "restore of cloud 2, which lost all its objects: both chunks of two other clouds" restore 2
    says "restored 2"
    lose 1 3
    show_counting 3000000 "restore of two clouds that did: the same of the others" restore 1 3
    says "restored 4"
    kept whole
    show_counting 6000000 "scrub: all chunks" scrub
    same "$scratch/empty"
}

# refused_mending: words that are no command, and clouds that fail. It leaves a folder gone.
refused_mending() {
    show 2 "restore of one cloud twice: no command" "$scratch/empty" restore 1 1
    show 2 "the same with another text: no command" "$scratch/empty" restore 1 01
    show 2 "restore of a cloud that isn't there: no command" "$scratch/empty" restore 4
    show 2 "restore of three clouds: no command" "$scratch/empty" restore 0 1 2
    show 2 "scrub of a name: no command" "$scratch/empty" scrub photos.db
    rm -r "$scratch/cloud2"
    show 4 "scrub where a folder is gone: every cloud must answer" "$scratch/empty" scrub
    show 4 "restore of another cloud then" "$scratch/empty" restore 2
    same "$scratch/empty"
}
