"""Scripts for the program timing and for `reference timing`, which make their calls in turn (docs/SPEED.md). Run as a program it
writes the stored script of crates/timing: every call at every size, in both states, and steps that no client would make."""
import struct
import sys

# A script is read in one piece of at most so many bytes.
SCRIPT_BYTES = 65536
SIZES = (32, 512, 4096)
STATES = ("plain", "reserved")
OPS = {name: number for number, name in enumerate((
    "nop", "format", "open", "start", "allocate", "extent", "deallocate", "precommit", "commit", "drop", "revoke", "store",
    "status", "cost", "reserve"))}
# The slot of the cycles: idle when a turn begins and when it ends.
SLOT = 6
# The calls of one kind in a cycle of many, and in one of grants of several blocks.
MANY, FEW = 8, 4
LARGEST_COUNT = 64


def step(op, slot=0, n=0, near=0):
    return struct.pack("<BBHH", OPS[op], slot, n, near)


def script(setup, cycle, turns):
    """The set-up once, then the cycle so many times."""
    made = len(setup) + turns * len(cycle)
    data = struct.pack("<III", len(setup), len(setup) + len(cycle), made) + b"".join(setup + cycle)
    assert len(data) <= SCRIPT_BYTES
    return data


def transaction(steps, words, slot=0):
    """A transaction with all stores of its commit, which changes at most so many words."""
    return [step("start", slot)] + steps + [step("precommit", slot), step("commit", slot)] + [step("store")] * (3 * words + 2)


def words_of(blocks):
    return (blocks + 31) // 32


def take(blocks):
    """The lowest blocks of an empty volume taken."""
    counts = [LARGEST_COUNT] * (blocks // LARGEST_COUNT) + [blocks % LARGEST_COUNT] * (blocks % LARGEST_COUNT > 0)
    return transaction([step("allocate", 0, count) for count in counts], words_of(blocks))


def give(blocks):
    """These blocks freed, so that there are holes."""
    return transaction([step("deallocate", 0, block) for block in blocks], words_of(max(blocks) + 1))


def half_full(blocks, state):
    """Half of the volume taken, but for a hole at every fourth or eighth block of it. Slots 1 and 2 are open, 3 and 4
    precommitted, and each of them has taken or freed something. If it is reserved, slots 1 and 5 have a reservation, from which
    slot 1 has drawn."""
    half, most = blocks // 2, {32: 2, 512: 16, 4096: 64}[blocks]
    steps = [step("format", 0, blocks), step("open")] + take(half) + give(range(3, half, 8 if blocks == 32 else 4))
    if state == "reserved":
        steps += [step("reserve", 1, most), step("reserve", 5, most)]
    steps += [step("start", 1), step("allocate", 1, most // 2), step("deallocate", 1, 0)]
    steps += [step("start", 2), step("allocate", 2, 1), step("deallocate", 2, 1)]
    steps += [step("start", 3), step("allocate", 3, 1), step("precommit", 3)]
    return steps + [step("start", 4), step("deallocate", 4, 2), step("precommit", 4)]


def between(*steps):
    """Steps between a start and a drop."""
    return [step("start", SLOT), *steps, step("drop", SLOT)]


def several(blocks):
    """The blocks of a grant of several."""
    return 2 if blocks == 32 else 8


def cycles(blocks):
    """What is made again and again, by name. Each leaves a volume as it found it, but for the cursor."""
    count, middle = several(blocks), blocks // 2 + 5
    start, precommit = step("start", SLOT), step("precommit", SLOT)
    return {
        "nop": [step("nop")],
        "format": [step("format", 0, blocks)],
        "open": [step("open")],
        "status": [step("status")],
        "cost": [step("cost", 1, count)],
        "reserve": [step("reserve", 5, {32: 2, 512: 16, 4096: 64}[blocks])],
        "drop": between(),
        "revoke": [start, precommit, step("revoke", SLOT)],
        "commit": [start, precommit, step("commit", SLOT)],
        "allocate 1": between(*[step("allocate", SLOT, 1)] * MANY),
        "allocate": between(*[step("allocate", SLOT, count)] * FEW),
        "extent 1": between(*[step("extent", SLOT, 1, middle)] * MANY),
        "extent": between(*[step("extent", SLOT, count, middle)] * FEW),
        "extent at 4": between(step("extent", SLOT, 1, 4)),
        "deallocate": between(*[step("deallocate", SLOT, block) for block in (4, 5, 6, 8, 9, 10, 12, 13)]),
        "stores": transaction([step("deallocate", SLOT, 4)], 1, SLOT) + transaction([step("extent", SLOT, 1, 4)], 1, SLOT),
    }


# The counts of blocks that extents are compared with allocates at, and the volumes.
EXTENT_COUNTS = (1, 8, 64)
EXTENT_VOLUMES = ("empty", "full", "comb")


def extent_volume(blocks, volume):
    """A volume with no block taken, with all, or with every other one."""
    steps = [step("format", 0, blocks), step("open")]
    steps += take(blocks) if volume != "empty" else []
    return steps + (give(range(1, blocks, 2)) if volume == "comb" else [])


def extent_cycles(blocks):
    """Allocates and extents of as many blocks, and what stands around them."""
    made = {"nop": [step("nop")], "drop": between()}
    for count in EXTENT_COUNTS:
        made["allocate %d" % count] = between(*[step("allocate", SLOT, count)] * FEW)
        made["extent %d" % count] = between(*[step("extent", SLOT, count, blocks // 2)] * FEW)
    return made


def stored():
    """The set-ups and the cycles of all sizes and states one behind the other, and steps of numbers that are too large."""
    steps = []
    for blocks in SIZES:
        for state in STATES:
            steps += half_full(blocks, state)
            steps += [one for name, cycle in cycles(blocks).items() if name not in ("format", "open") for one in cycle]
    strange = [struct.pack("<BBHH", op, 255, 65535, 65535) for op in range(256)]
    return script(steps, strange, 3)


if __name__ == "__main__":
    sys.stdout.buffer.write(stored())
