#!/usr/bin/env python3
"""Does to folders what the program does, as docs/FORMATS.md describes it:

    plain.py FOLDER,.. NAME [GENERATION] < FILE      the file, as this version of a name that puts alone made (else as the first)
    plain.py FOLDER,.. NAME repaired CLOUD,.. < FILE the file, put as the first version, after repairs of these clouds in turn
    plain.py FOLDER,.. NAME GENERATION removed       the name, removed as this version
    plain.py scrub FOLDER,..                         prints what isn't right of what stands in the folders
    plain.py restore FOLDER,.. CLOUD [CLOUD]         makes the chunks of one cloud or two right again
    plain.py mill FOLDER,.. NUMBER                   prints the line of a mill, in a minute or two; the folders needn't exist

The first three write objects into empty folders. It shares no code with the program, and is as plain as it can be. Codes are
drawn as the program draws them where nothing else is chosen: from a seed of 32 zero bytes, and from 64 candidates at most."""
import sys
from hashlib import sha256
from struct import pack

from plain_codes import candidate_block, draw_key, find_repair, find_start
from plain_damage import restore, scrub
from plain_objects import objects, removed

SEED = bytes(32)
BUDGET = 64


def put_objects(width, name, generation, data):
    """What the clouds hold after a put of a name that puts alone made."""
    _, rows, plans = find_start(width, draw_key(SEED, name, generation), BUDGET)
    slots = [(generation + 1) % 2] * width  # the first version has its chunks in slot 0, the next in slot 1
    return objects(generation, slots, rows, plans, name, data)


def repaired_objects(width, name, losses, data):
    """What they hold after repairs of these clouds. Each turns over the slot of its cloud."""
    _, rows, plans = find_start(width, draw_key(SEED, name, 1), BUDGET)
    slots = [0] * width
    for generation, lost in enumerate(losses, 2):
        rows, plans = find_repair(rows, plans, lost, draw_key(SEED, name, generation), BUDGET)
        slots[lost] ^= 1
    return objects(1 + len(losses), slots, rows, plans, name, data)


def mill(width, number):
    """The line of a mill, whose file and whose repair have to find codes."""
    lost = number % width
    _, rows, plans = find_start(width, draw_key(SEED, b"mill", 1), BUDGET)
    find_repair(rows, plans, lost, draw_key(SEED, b"mill", 2), BUDGET)
    file = candidate_block(sha256(b"mill" + pack(">Q", number)).digest(), 0, 8 * 1024 * 1024)
    return f"mill {number} width {width} lost {lost} fetched {width - 1} sha256 {sha256(file).hexdigest()}\n"


def write_new(folders, name, words):
    """Writes the objects that these words ask for."""
    width = len(folders)
    if words[1:] == ["removed"]:
        clouds = removed(width, int(words[0]), name)
    elif words[:1] == ["repaired"]:
        losses = [int(cloud) for cloud in words[1].split(",")]
        clouds = repaired_objects(width, name, losses, sys.stdin.buffer.read())
    else:
        clouds = put_objects(width, name, int(words[0]) if words else 1, sys.stdin.buffer.read())
    for folder, held in zip(folders, clouds):
        for key, bytes_of in held.items():
            with open(f"{folder}/{key}", "wb") as file:
                file.write(bytes_of)


def main():
    first, second, *words = sys.argv[1:]
    if first == "scrub":
        sys.stdout.buffer.write(scrub(second.split(",")))
    elif first == "restore":
        sys.stdout.buffer.write(restore(second.split(","), sorted(int(cloud) for cloud in words)))
    elif first == "mill":
        sys.stdout.write(mill(len(second.split(",")), int(words[0])))
    else:
        write_new(first.split(","), second.encode(), words)


if __name__ == "__main__":
    main()
