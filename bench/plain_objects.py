"""The objects that stand on clouds, written and read, as docs/FORMATS.md describes them."""
import re
from hashlib import sha256
from struct import pack
from typing import NamedTuple, Optional

from plain_codes import combination


# ---- key texts

KEY_TEXT = re.compile("(?:m-((?:[0-9a-f]{2}){1,100})-[01]|c-((?:[0-9a-f]{2}){1,100})-[01]-[01])")


def metadata_key(name, slot):
    return f"m-{name.hex()}-{slot}"


def chunk_key(name, slot, row):
    return f"c-{name.hex()}-{slot}-{row}"


def name_of(text):
    """The name that a key's text is about; None where the text is no key's."""
    found = KEY_TEXT.fullmatch(text)
    name = found and bytes.fromhex(found[1] or found[2])
    return name if name and is_name(name) else None


def is_name(name):
    try:
        name.decode()
    except UnicodeDecodeError:
        return False
    return not any(byte < 0x20 or byte == 0x7F for byte in name)


# ---- frames

def frame(cloud, width, key, payload):
    bare = b"NCF1" + bytes([cloud, width]) + pack(">H", len(key)) + key + pack(">Q", len(payload)) + payload
    return bare + sha256(bare).digest()


def framed(cloud, width, payloads):
    return {key: frame(cloud, width, key.encode(), payloads[key]) for key in payloads}


class Frame(NamedTuple):
    cloud: int
    width: int
    key: bytes
    payload: bytes


def unframed(data):
    """The parts of a whole frame; None for any other bytes."""
    at = 8 + int.from_bytes(data[6:8], "big")
    end = at + 8 + int.from_bytes(data[at:at + 8], "big")
    if data[:4] != b"NCF1" or len(data) != end + 32 or sha256(data[:end]).digest() != data[end:]:
        return None
    return Frame(data[4], data[5], data[8:at], data[at + 8:end])


# ---- metadata

class Metadata(NamedTuple):
    payload: bytes
    generation: int
    length: Optional[int] = None  # none where the file was removed, and then there is nothing of what follows
    rows: tuple = ()
    slots: bytes = b""
    marks: tuple = ()


def metadata(generation, slots, rows, plans, length, chunks):
    head = b"NCM1" + bytes([1]) + pack(">QQ", generation, length)
    marks = b"".join(sha256(chunk).digest() for chunk in chunks)
    return head + b"".join(rows) + bytes(slots) + marks + bytes([bool(plans)]) + b"".join(plans)


def removal(generation):
    return b"NCM1" + bytes([0]) + pack(">Q", generation)


def pieces(data, size):
    return tuple(data[at:at + size] for at in range(0, len(data), size))


def read_metadata(width, payload):
    """The metadata that a payload spells; None where it spells none."""
    generation = int.from_bytes(payload[5:13], "big")
    if payload[:4] != b"NCM1" or not 1 <= generation <= 2 ** 64 - 2:
        return None
    if payload == removal(generation):
        return Metadata(payload, generation)
    return read_file_metadata(width, payload, generation) if payload[4] == 1 else None


def read_file_metadata(width, payload, generation):
    natives, survivors = 2 * (width - 2), width - 1
    parts, rest = [], payload[13:]
    for size in (8, 2 * width * natives, width, 2 * width * 32, 1):
        parts.append(rest[:size])
        rest = rest[size:]
    length, rows, slots, marks, flag = parts
    plans = pieces(rest, 3 * survivors)
    choices = b"".join(plan[:survivors] for plan in plans)
    if flag not in (b"\0", b"\1") or len(rest) != flag[0] * width * 3 * survivors or max(slots + choices) > 1:
        return None
    if int.from_bytes(length, "big") > 2 ** 26:
        return None
    return Metadata(payload, generation, int.from_bytes(length, "big"), pieces(rows, natives), slots, pieces(marks, 32))


# ---- what stands on clouds

def cut(width, data):
    natives = 2 * (width - 2)
    size = -(-len(data) // natives)
    data += bytes(natives * size - len(data))
    return [data[i * size:(i + 1) * size] for i in range(natives)]


def objects(generation, slots, rows, plans, name, data):
    """What each cloud holds of a file: frames by their keys' texts."""
    width = len(rows) // 2
    natives = cut(width, data)
    chunks = [combination(row, natives) for row in rows]
    payload = metadata(generation, slots, rows, plans, len(data), chunks)
    clouds = []
    for cloud, slot in enumerate(slots):
        payloads = {chunk_key(name, slot, row): chunks[2 * cloud + row] for row in (0, 1)}
        payloads[metadata_key(name, generation % 2)] = payload
        clouds.append(framed(cloud, width, payloads))
    return clouds


def removed(width, generation, name):
    """What each cloud holds of a name that was removed."""
    return [framed(cloud, width, {metadata_key(name, generation % 2): removal(generation)}) for cloud in range(width)]
