"""The field, the codes and how they are drawn, as docs/FORMATS.md describes them: no code is shared with the program, and all
is as plain as it can be."""
import sys
from hashlib import sha256
from itertools import combinations
from struct import pack, unpack


# ---- the field

def product(a, b):
    total = 0
    while b:
        if b % 2:
            total ^= a
        a = 2 * a if a < 128 else 2 * a ^ 0x11D
        b //= 2
    return total


# TIMES[a] has at place b the product of a and b.
TIMES = [bytes(product(a, b) for b in range(256)) for a in range(256)]


def combination(factors, parts):
    """The sum of these parts of one length, each times its factor."""
    total = 0
    for factor, part in zip(factors, parts):
        total ^= int.from_bytes(part.translate(TIMES[factor]), "big")
    return total.to_bytes(len(parts[0]), "big")


def are_independent(rows):
    """Whether a square of rows has an inverse: each column in turn finds a row to be cleared with."""
    for column in range(len(rows)):
        pivot = next((row for row in rows if row[column]), None)
        if pivot is None:
            return False
        inverse = TIMES[pivot[column]].index(1)
        rows = [combination((1, TIMES[row[column]][inverse]), (row, pivot)) for row in rows if row is not pivot]
    return True


# ---- codes: a code is the list of its rows, row r of cloud c at place 2c+r

def striped(width):
    natives = range(2 * (width - 2))
    rows = [[int(i == k) for i in natives] for k in natives]
    rows += [[int(i % 2 == s) for i in natives] for s in (0, 1)]
    rows += [[2 ** (i // 2) * (i % 2 == s) for i in natives] for s in (0, 1)]
    return [bytes(row) for row in rows]


def solved(rows, parts):
    """The parts of which these rows combine these ones: each column in turn is cleared from all rows but one."""
    pairs = list(zip(rows, parts))
    for column in range(len(rows)):
        pivot = next(k for k in range(column, len(rows)) if pairs[k][0][column])
        inverse = TIMES[pairs[pivot][0][column]].index(1)
        pairs[pivot], pairs[column] = pairs[column], tuple(combination([inverse], [side]) for side in pairs[pivot])
        for k, (row, _) in enumerate(pairs):
            if k != column and row[column]:
                pairs[k] = tuple(combination((1, row[column]), sides) for sides in zip(pairs[k], pairs[column]))
    return [part for _, part in pairs]


def is_mds(rows):
    """Whether the rows of all clouds but any two are independent."""
    clouds = range(len(rows) // 2)
    return all(are_independent([row for i, row in enumerate(rows) if i // 2 not in pair]) for pair in combinations(clouds, 2))


def repaired(rows, lost, plan):
    """The code after the repair of a cloud. A plan has the choices of the survivors, then their factors for either row."""
    survivors = [cloud for cloud in range(len(rows) // 2) if cloud != lost]
    n = len(survivors)
    fetched = [rows[2 * cloud + choice] for cloud, choice in zip(survivors, plan)]
    new = [combination(plan[n:2 * n], fetched), combination(plan[2 * n:], fetched)]
    return rows[:2 * lost] + new + rows[2 * lost + 2:]


def read_plan(base, data):
    """The plan of plan bytes: the base has a choice for each survivor, of which one is turned over."""
    return bytes(choice ^ (position == data[0] % 16) for position, choice in enumerate(base)) + data[1:]


def first_witness(rows, lost, base, tries):
    """The first plan of these tries after which any two clouds may be lost."""
    plans = (read_plan(base, data) for data in tries)
    return next((plan for plan in plans if is_mds(repaired(rows, lost, plan))), None)


# ---- draws

def chacha20(key, counter):
    """64 bytes of the stream of a key."""
    start = list(unpack("<12I", b"expand 32-byte k" + key)) + [counter, 0, 0, 0]
    words = start[:]

    def turn(a, b, c, bits):
        """Adds word b to word a, and that to word c, turned."""
        words[a] = (words[a] + words[b]) % 2 ** 32
        mixed = words[c] ^ words[a]
        words[c] = (mixed << bits | mixed >> 32 - bits) % 2 ** 32

    for _ in range(10):
        for step in (0, 1):  # columns, diagonals
            for i in range(4):
                a, b, c, d = (4 * row + (i + row * step) % 4 for row in range(4))
                turn(a, b, d, 16)
                turn(c, d, b, 12)
                turn(a, b, d, 8)
                turn(c, d, b, 7)
    return pack("<16I", *((a + b) % 2 ** 32 for a, b in zip(start, words)))


def candidate_block(key, index, length):
    """The block of a candidate: so many bytes from its word on."""
    start = index * -(-length // 4) * 4
    stream = b"".join(chacha20(key, counter) for counter in range(start // 64, (start + length) // 64 + 1))
    return stream[start % 64:][:length]


def draw_key(seed, name, generation):
    return sha256(seed + name + pack(">Q", generation)).digest()


def candidate(width, key, index):
    """The rows of a candidate and its plan for each loss, where it is good."""
    natives, each = 2 * (width - 2), 1 + 2 * (width - 1)
    block = candidate_block(key, index, 2 * width * natives + width * 16 * each)
    rows = [block[i * natives:(i + 1) * natives] for i in range(2 * width)]
    if not is_mds(rows):
        return None
    plans = []
    for lost in range(width):
        starts = (2 * width * natives + (16 * lost + number) * each for number in range(16))
        plan = first_witness(rows, lost, bytes(width - 1), (block[start:start + each] for start in starts))
        if plan is None:
            return None
        plans.append(plan)
    return rows, plans


def find_start(width, key, budget):
    """The index of the first good candidate, its rows and its plans."""
    for index in range(budget):
        good = candidate(width, key, index)
        if good:
            return index, *good
    sys.exit(f"none of {budget} candidates is good")


def repair_candidate(rows, stored, lost, key, index):
    """The rows after a repair by a candidate and the plan for each loss then, where it is good."""
    width = len(rows) // 2
    each = 1 + 2 * (width - 1)
    block = candidate_block(key, index, each + 16 * (width - 1) * each)
    plan = read_plan(stored[:width - 1], block[:each]) if index else stored
    rows = repaired(rows, lost, plan)
    if not is_mds(rows):
        return None
    turned = [1 - choice for choice in plan[:width - 1]]
    turned.insert(lost, 0)
    plans = []
    for position, loss in enumerate(cloud for cloud in range(width) if cloud != lost):
        starts = (each + (16 * position + number) * each for number in range(16))
        base = turned[:loss] + turned[loss + 1:]
        plans.append(first_witness(rows, loss, base, (block[start:start + each] for start in starts)))
    plans.insert(lost, plan)
    return None if None in plans else (rows, plans)


def find_repair(rows, plans, lost, key, budget):
    """The rows and the plans after the first good candidate for the repair of a cloud."""
    for index in range(budget):
        good = repair_candidate(rows, plans[lost], lost, key, index)
        if good:
            return good
    sys.exit(f"none of {budget} candidates is good")
