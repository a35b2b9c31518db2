"""What isn't right of what stands in folders, and how the chunks of one cloud or two are made right again, as
docs/FORMATS.md describes it. A refusal ends the program with the exit code that it has there."""
import os
import sys
from hashlib import sha256

from plain_codes import combination, is_mds, solved
from plain_objects import Metadata, chunk_key, cut, frame, metadata_key, name_of, read_metadata, unframed

CLOUD_FAILED, TOO_FEW, CONTRADICTION = 4, 5, 11
LONGEST_METADATA = 2048


# ---- what the folders hold

def all_names(folders):
    """The names of all keys in all folders, in the order of their bytes."""
    try:
        texts = [text for folder in folders for text in os.listdir(folder)]
    except OSError:
        sys.exit(CLOUD_FAILED)
    return sorted({name_of(text) for text in texts} - {None})


def held(folder, key):
    """What a folder holds under a key; None where there is nothing."""
    try:
        with open(f"{folder}/{key}", "rb") as file:
            return file.read()
    except OSError as cause:
        if isinstance(cause, FileNotFoundError) and os.path.isdir(folder):
            return None
        sys.exit(CLOUD_FAILED)


def write(folders, cloud, key, payload):
    with open(f"{folders[cloud]}/{key}", "wb") as file:
        file.write(frame(cloud, len(folders), key.encode(), payload))


# ---- metadata

def metadata_at(folders, cloud, name, slot):
    """The metadata in a place, or what is there in place of it: missing, broken or elsewhere."""
    key = metadata_key(name, slot)
    data = held(folders[cloud], key)
    if data is None:
        return "missing"
    seen = unframed(data) if len(data) <= LONGEST_METADATA else None
    if seen and (seen.cloud, seen.width) != (cloud, len(folders)):
        return "elsewhere"
    found = read_metadata(len(folders), seen.payload) if seen and seen.key == key.encode() else None
    return found if found and found.generation % 2 == slot else "broken"


def look(folders, name):
    """The places of a name's metadata, by cloud and slot, and the highest metadata in them, if any."""
    places = {(cloud, slot): metadata_at(folders, cloud, name, slot) for cloud in range(len(folders)) for slot in (0, 1)}
    if "elsewhere" in places.values():
        sys.exit(CONTRADICTION)
    found = [place for place in places.values() if isinstance(place, Metadata)]
    top = max(found, key=lambda metadata: metadata.generation, default=None)
    if any(metadata != top for metadata in found if metadata.generation == top.generation):
        sys.exit(CONTRADICTION)
    return places, top


def metadata_state(place, top):
    if place == top:
        return "right"
    return "old" if isinstance(place, Metadata) else place


# ---- chunks

def chunk_at(folders, name, top, cloud, row):
    """The state of a chunk, and its payload where it is right."""
    key = chunk_key(name, top.slots[cloud], row)
    data = held(folders[cloud], key)
    if data is None:
        return "missing", None
    size = -(-top.length // (2 * (len(folders) - 2)))
    seen = unframed(data)
    if seen is None or seen[:3] != (cloud, len(folders), key.encode()) or len(seen.payload) != size:
        return "broken", None
    right = sha256(seen.payload).digest() == top.marks[2 * cloud + row]
    return ("right", seen.payload) if right else ("changed", None)


def file_without(folders, name, top, lost):
    """The file, from the first clouds but the lost ones whose two chunks are right."""
    width, rows, parts = len(folders), [], []
    for cloud in range(width):
        if cloud in lost or len(parts) == 2 * (width - 2):
            continue
        chunks = [chunk_at(folders, name, top, cloud, row) for row in (0, 1)]
        if all(state == "right" for state, _ in chunks):
            rows += top.rows[2 * cloud:2 * cloud + 2]
            parts += [payload for _, payload in chunks]
    if len(parts) < 2 * (width - 2):
        sys.exit(TOO_FEW)
    return b"".join(solved(rows, parts))[:top.length]


# ---- the commands

def states_of(folders, name):
    """What isn't right of a name: the cloud, the part and the state of each."""
    places, top = look(folders, name)
    for cloud in range(len(folders) if top else 0):
        yield cloud, "meta", metadata_state(places[cloud, top.generation % 2], top)
        for row in (0, 1) if top.length is not None else ():
            yield cloud, f"chunk {row}", chunk_at(folders, name, top, cloud, row)[0]


def scrub(folders):
    """A line for each part that isn't right."""
    lines = []
    for name in all_names(folders):
        for cloud, part, state in states_of(folders, name):
            if state != "right":
                lines.append(f"cloud {cloud} {part} {state} ".encode() + name + b"\n")
    return b"".join(lines)


def restore_name(folders, name, lost):
    """Brings a name to rest, and makes its chunks on these clouds right: how many weren't."""
    places, top = look(folders, name)
    for cloud in range(len(folders) if top else 0):
        if places[cloud, top.generation % 2] != top:
            write(folders, cloud, metadata_key(name, top.generation % 2), top.payload)
    if top is None or top.length is None:
        return 0
    if not is_mds(top.rows):
        sys.exit(CONTRADICTION)
    bad = [(row, cloud) for row in (0, 1) for cloud in lost if chunk_at(folders, name, top, cloud, row)[0] != "right"]
    if bad:
        natives = cut(len(folders), file_without(folders, name, top, lost))
        for row, cloud in bad:
            write(folders, cloud, chunk_key(name, top.slots[cloud], row), combination(top.rows[2 * cloud + row], natives))
    return len(bad)


def restore(folders, lost):
    """What is told of the restoring of these clouds."""
    return b"restored %d\n" % sum(restore_name(folders, name, lost) for name in all_names(folders))
