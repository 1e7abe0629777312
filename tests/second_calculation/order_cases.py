"""File cases about the kinds of blocks, their order, and rising numbers."""

from base_days import base_blocks, pairs
from day_file import encode, with_check
from samples import (
    day, file_of, headed, mended, owners_at, participant, real_time, resource,
)

# Kind bytes that name no kind: the letters' neighbours, the letters with one bit
# turned over (small letters among them), and what a careless program leaves behind.
NEIGHBOURS = {ord(letter) + step for letter in "DPGR" for step in (-1, 1)}
TURNED = {ord(letter) ^ (1 << bit) for letter in "DPGR" for bit in range(8)}
LEFT_BEHIND = {0x00, 0x01, 0x0A, 0x20, 0x30, 0x7F, 0x80, 0xFF}
STRANGE_KINDS = sorted((NEIGHBOURS | TURNED | LEFT_BEHIND) - set(b"DPGR"))


# --- Kinds --------------------------------------------------------------------------


def lead_in(last):
    """A file up to and with a block of this kind, all in order; '' is no block yet."""
    records = [day(1, 1), participant(5), resource(7), real_time(7)]
    return file_of(records[:"DPGR".index(last) + 1]) if last else b""


def of_kind(byte):
    """A block that would be right for its kind in some place; others hold nothing."""
    right = {"D": day(1, 1), "P": participant(6), "G": resource(8), "R": real_time(7)}
    return encode(right[chr(byte)]) if chr(byte) in right else blank_of_kind(byte)


def blank_of_kind(byte):
    return with_check(bytes([byte]) + bytes(511))


def strange_kinds():
    """Every strange kind byte first in a file and after some kind; good blocks renamed."""
    for rank, byte in enumerate(STRANGE_KINDS):
        yield f"kind {byte} first", blank_of_kind(byte)
        last = "DPGR"[rank % 4]
        yield f"kind {byte} after {last}", lead_in(last) + blank_of_kind(byte)
    for rank, block in enumerate(base_blocks()):
        for byte in (block[0] | 0x20, block[0] | 0x80, 0):
            blocks = base_blocks()
            blocks[rank] = mended(block, 0, [byte])
            yield f"block {rank} renamed {byte}", b"".join(blocks)


def pairs_of_kinds():
    """Every kind after every other, at the end of an orderly file and in two blocks."""
    kinds = b"DPGRdpgrA\0"
    for last in ("", "D", "P", "G", "R"):
        for byte in kinds:
            yield f"kind {byte} after {last or 'nothing'}", lead_in(last) + of_kind(byte)
    for first in kinds:
        for second in kinds:
            yield f"only kinds {first} and {second}", of_kind(first) + of_kind(second)


# --- Order --------------------------------------------------------------------------


def orders():
    for label, records in orders_of_records().items():
        yield label, file_of(records)
    unfit = mended(encode(resource(7)), 384, [1])
    yield "G right after D, a byte set too", file_of([day(1, 1)]) + unfit


def orders_of_records():
    one, two = participant(5), participant(6)
    seven, eight, r_seven, r_eight = resource(7), resource(8), real_time(7), real_time(8)
    return {
        "D twice": [day(1, 1), day(1, 1), one, seven],
        "D last": [day(1, 1), one, seven, day(1, 1)],
        "D after P": [day(2, 0), one, day(2, 0), two],
        "D after G": [day(1, 2), one, seven, day(1, 2), eight],
        "D after R": [day(1, 2), one, seven, r_seven, day(1, 2), eight],
        "P after G": [day(2, 1), one, seven, two],
        "P after R": [day(2, 1), one, seven, r_seven, two],
        "P after G, number falling": [day(2, 1), two, seven, one],
        "R first": [r_seven, day(1, 1), one, seven],
        "R alone": [r_seven],
        "R after R": [day(1, 1), one, seven, r_seven, r_seven],
        "R after R of another": [day(1, 2), one, seven, r_seven, r_eight, eight],
        "R after P": [day(1, 1), one, r_seven, seven],
        "R after D": [day(1, 1), r_seven, one, seven],
        "G right after D": [day(1, 1), seven],
        "G right after D, then P": [day(1, 1), seven, one],
        "G right after D, eight owners": [day(1, 1), resource(7, owners_at(range(8)))],
        "G first": [seven, day(1, 1), one],
        "P first": [one, day(1, 1), seven],
        "no D": [one, seven, r_seven],
        "no P, no G": [day(1, 0)],
        "G after G": [day(1, 2), one, seven, eight],
        "G after R": [day(1, 2), one, seven, r_seven, eight],
        "R for the second G only": [day(1, 2), one, seven, eight, r_eight],
        "R for the first G, too late": [day(1, 2), one, seven, eight, r_seven],
    }


# --- Numbers ------------------------------------------------------------------------


def numbers_rising_or_not():
    """The same runs of numbers for participants and for Resources with and without R."""
    one = participant(1)
    for run in runs_of_numbers():
        yield f"participants {run}", file_of(headed([participant(n) for n in run]))
        yield f"Resources {run}", file_of(headed([one, *(resource(n) for n in run)]))
        yield f"Resources with R {run}", file_of(headed([one, *pairs(run)]))
        mixed = [*pairs(run[:1]), *(resource(n) for n in run[1:])]
        yield f"R after the first of {run}", file_of(headed([one, *mixed]))
    lower = [participant(900), participant(901), resource(3), resource(4)]
    yield "Resources below the participants", file_of(headed(lower))
    same = [participant(3), participant(4), resource(3), resource(4)]
    yield "Resources numbered like participants", file_of(headed(same))


def runs_of_numbers():
    """Many of them rise or fall only in their upper bytes."""
    return [
        (7, 7), (7, 6), (7, 8), (1, 2, 2), (1, 3, 2), (5, 9, 5), (5, 9, 4), (5, 9, 10), (3, 2, 1),
        (255, 256), (256, 255), (65_535, 65_536), (65_536, 65_535), (511, 256), (256, 511),
        (999_998, 999_999), (999_999, 999_999), (999_999, 1), (1, 999_999), (1, 257), (257, 1),
        (65_537, 131_072), (131_072, 65_537), (10, 20, 30, 30), (10, 20, 30, 29), (10, 20, 30, 40),
        (10, 10, 20, 30), (4, 3, 5), (4, 4, 5), (999_999, 1_000_000), (7, 0), (0, 7),
    ]


def real_time_numbers():
    """An R after a G of its own or another number, with and without other faults."""
    for own in (1, 7, 256, 65_536, 999_999):
        for number in numbers_around(own):
            records = headed([participant(1), resource(own), real_time(number)])
            yield f"R {number} after G {own}", file_of(records)
    seven, eight = resource(7), resource(8)
    late = [participant(7), seven, eight, real_time(7)]
    yield "R of the first after the second", file_of(headed(late))
    early = [participant(7), seven, real_time(8), eight]
    yield "R of the second after the first", file_of(headed(early))
    of_participant = [participant(5), resource(9), real_time(5)]
    yield "R with the participant's number", file_of(headed(of_participant))
    for at in (1, 2, 3, 11, 15, 300, 324, 348, 507):
        block = mended(encode(real_time(8)), at, [0xFF])
        yield f"R 8 after G 7, byte {at} too", file_of(headed([participant(1), seven])) + block


def numbers_around(own):
    """The number itself, near and far ones, and those off in one byte only."""
    return [own, own - 1, own + 1, 0, 1_000_000, *(own ^ (1 << (8 * byte)) for byte in range(4))]
