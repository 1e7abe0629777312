"""File cases of damage: wrong checks, several faults, moved blocks, and chance."""

from itertools import chain, combinations

from base_days import SEED, base_blocks, base_records
from day_file import (
    ALL_PARTS, BLOCK_BYTES, CHECK_START, FIELDS, HOURS, check_of, encode, with_check,
)
from order_cases import lead_in
from samples import (
    Dice, blocks_of, day, file_of, headed, mended, participant, random_day, random_record,
    real_time, resource, with_bytes,
)
from small_day import small_day


# --- Checks -------------------------------------------------------------------------


def wrong_checks():
    for index, block in enumerate(base_blocks()):
        for label, spoilt in checks_gone_wrong(block):
            blocks = base_blocks()
            blocks[index] = spoilt
            yield f"block {index}: {label}", b"".join(blocks)
    heavy = encode(random_record(Dice(SEED + 3), "R", 7, 100))
    for label, spoilt in checks_gone_wrong(heavy):
        yield f"full R: {label}", lead_in("G") + spoilt
    yield from checks_past_24_bits()


def checks_gone_wrong(block):
    """The block with checks as other programs may form them."""
    for label, check in other_checks(block).items():
        yield label, with_bytes(block, CHECK_START, check.to_bytes(4, "little"))


def other_checks(block):
    right, plain_sum = check_of(block), sum(block[:CHECK_START])
    return {
        "one more": right + 1,
        "one less": right - 1,
        "second byte": right + 2**8,
        "third byte": right + 2**16,
        "top byte": right + 2**24,
        "top bit": right + 2**31,
        "none": 0,
        "all bits": 2**32 - 1,
        "16 bits only": right % 2**16,
        "8 bits only": right % 2**8,
        "bytes reversed": int.from_bytes(right.to_bytes(4, "little"), "big"),
        "counted from 0": right - plain_sum,
        "counted from 2": right + plain_sum,
        "not weighted": plain_sum,
        "without the kind": right - block[0],
        "negative": 2**32 - right,
    }


def checks_past_24_bits():
    """Blocks so full that their right check needs its top byte."""
    for kind, last in ((b"D", ""), (b"P", "P"), (b"G", "P"), (b"R", "G"), (b"\xff", "")):
        block = with_check(kind + bytes([0xFF] * 511))
        yield f"full block of kind {kind}", lead_in(last) + block
        yield f"full block of kind {kind}, top byte 0", lead_in(last) + with_bytes(block, 511, [0])


# --- Several faults -----------------------------------------------------------------

# The rules that each block of the base day can be made to break.
BREAKABLE = [(2, 3, 4), (2, 3, 4), (2, 3, 4, 5), (2, 3, 4, 6), (2, 3, 4), (2, 3, 4, 5, 6)]


def breaking(block, rules):
    """A block of the base day that breaks these rules."""
    if 5 in rules:
        block = mended(block, 4, [1, 0, 0, 0])          # the least number there is
    if 6 in rules:
        block = mended(block, 122, [0, 0, 0, 0])        # the first owner's parts
    if 4 in rules:
        block = mended(block, 500, [1])                 # unnamed in every kind
    if 3 in rules:
        block = mended(block, 0, [block[0] | 0x20])     # the small letter
    if 2 in rules:
        block = with_bytes(block, CHECK_START, [block[CHECK_START] ^ 1])
    return block


def faults_in_one_block():
    """Every set of rules that a block can break at once, alone and with wrong counts."""
    for index, rules in enumerate(BREAKABLE):
        for chosen in chain.from_iterable(combinations(rules, n + 1) for n in range(len(rules))):
            blocks = base_blocks()
            blocks[index] = breaking(blocks[index], chosen)
            yield f"block {index} breaks {chosen}", b"".join(blocks)
            if index:
                blocks[0] = encode(day(3, 1))
                yield f"block {index} breaks {chosen}, counts wrong", b"".join(blocks)


def out_of_order_and_more():
    """Blocks that stand in the wrong place, with other rules broken besides."""
    misplaced = {
        "D": (lead_in("P"), encode(day(1, 1))),
        "P": (lead_in("G"), encode(participant(5))),
        "G": (b"", encode(resource(7, [(48, ALL_PARTS)]))),
        "R": (lead_in("P"), encode(real_time(7))),
    }
    for kind, (lead, block) in misplaced.items():
        unfit = mended(block, 450, [1])
        yield f"{kind} out of order", lead + block
        yield f"{kind} out of order, a byte set", lead + unfit
        yield f"{kind} out of order, check wrong", lead + with_bytes(block, 511, [1])
        yield f"{kind} out of order, both", lead + with_bytes(unfit, 511, [1])


def faults_in_two_blocks():
    """A rule broken in one block and any in a later one: the earlier block is told."""
    for first, second in combinations(range(len(BREAKABLE)), 2):
        for one in BREAKABLE[first]:
            for other in BREAKABLE[second]:
                blocks = base_blocks()
                blocks[first] = breaking(blocks[first], (one,))
                blocks[second] = breaking(blocks[second], (other,))
                yield f"block {first} breaks {one}, block {second} {other}", b"".join(blocks)


# --- Moved blocks -------------------------------------------------------------------


def moved_blocks():
    """Blocks of a right day left out, doubled, emptied, exchanged, or pushed apart."""
    right, empty = base_blocks(), bytes(BLOCK_BYTES)
    for index in range(len(right)):
        before, after = right[:index], right[index + 1:]
        yield f"without block {index}", b"".join(before + after)
        yield f"block {index} twice", b"".join([*before, right[index], right[index], *after])
        yield f"zeros before block {index}", b"".join([*before, empty, right[index], *after])
        yield f"block {index} all zeros", b"".join([*before, empty, *after])
    for one, other in combinations(range(len(right)), 2):
        moved = [*right]
        moved[one], moved[other] = moved[other], moved[one]
        yield f"blocks {one} and {other} exchanged", b"".join(moved)
    yield "all blocks reversed", b"".join(reversed(right))
    data = b"".join(right)
    for shift in (1, 4, 256):
        yield f"all bytes moved on by {shift}", bytes(shift) + data[:-shift]


# --- Chance -------------------------------------------------------------------------


def damaged_bytes():
    """Single bytes damaged anywhere, and single bits of bytes that hold something."""
    dice = Dice(SEED + 4)
    for data in (small_day(), file_of(base_records())):
        for _ in range(70):
            at = dice.below(len(data))
            yield from damaged_at(data, at, data[at] ^ dice.between(1, 255))
        held = [at for at, byte in enumerate(data) if byte and at % BLOCK_BYTES < CHECK_START]
        for at in dice.some(held, 40):
            yield from damaged_at(data, at, data[at] ^ (1 << dice.below(8)))


def damaged_at(data, at, value):
    """One byte replaced, the check left as it was and then made right."""
    yield f"byte {at} is {value}", with_bytes(data, at, [value])
    index, inside = divmod(at, BLOCK_BYTES)
    blocks = blocks_of(data)
    blocks[index] = mended(blocks[index], inside, [value])
    yield f"byte {at} is {value}, check mended", b"".join(blocks)


def random_right_days():
    dice = Dice(SEED + 5)
    for _ in range(90):
        shape, filled = (dice.between(1, 6), dice.below(5)), dice.pick([2, 10, 30])
        yield f"{shape} {filled} filled", file_of(random_day(dice, *shape, filled))
    for _ in range(14):
        shape = dice.between(1, 3), dice.between(1, 2)
        yield f"{shape} all filled", file_of(random_day(dice, *shape, 100))
    for _ in range(12):
        shape = dice.between(7, 48), dice.between(3, 24)
        yield f"{shape} nearly empty", file_of(random_day(dice, *shape, 1))
    yield "every event and flag in every hour", file_of(every_event_and_flag())


def every_event_and_flag():
    records = [participant(1)]
    for turn in range(12):
        flags = {f"flag {hour}": (hour + turn) % 3 for hour in HOURS}
        records.append(resource(turn + 1, changes=flags))
        events = {f"event {hour}": (hour + turn) % 6 for hour in HOURS}
        flags = {f"flag {hour}": (hour + turn) % 4 for hour in HOURS}
        records.append(real_time(turn + 1, events | flags))
    return headed(records)


def random_wrong_fields():
    """Random days with one field that holds any bits, the check being right."""
    dice = Dice(SEED + 6)
    for _ in range(100):
        records = random_day(dice, dice.between(1, 4), dice.between(1, 3), 4)
        index = dice.below(len(records))
        field = dice.pick(FIELDS[records[index].kind])
        bits = [dice.below(256) for _ in range(field.width)]
        blocks = [encode(record) for record in records]
        blocks[index] = mended(blocks[index], field.start, bits)
        yield f"block {index} {field.name} {bits}", b"".join(blocks)
