"""Owners' lists, right and wrong in every way, for files, blocks and records alike."""

from day_file import ALL_PARTS, SLOTS
from samples import owners_at, split


def ownership_trials(places):
    """Owners' lists, right and wrong, where places must be below `places`.

    Each is a label, the count that the record says, and up to eight slots.
    `places` is at least 8.
    """
    yield from right_lists(places)
    yield from wrong_places(places)
    yield from wrong_parts()
    yield from wrong_counts()
    yield from used_beyond_count()


def right_lists(places):
    for owners in SLOTS:
        yield f"{owners} owners from place 0", owners, owners_at(range(owners))
        last = range(places - owners, places)
        yield f"{owners} owners up to the last place", owners, owners_at(last)
    yield "one part and the rest", 2, [(0, 1), (1, 999_999)]
    yield "the rest and one part", 2, [(0, 999_999), (places - 1, 1)]
    yield "places far apart", 3, owners_at([0, places // 2, places - 1])


def wrong_places(places):
    for place in (places, places + 1, 48, 127, 255, 256, 257, 0x0100 + places - 1, 0x8000, 0xFFFF):
        yield f"one owner at place {place}", 1, [(place, ALL_PARTS)]
        yield f"second owner at place {place}", 2, [(0, 400_000), (place, 600_000)]
    for slot in range(7):
        ranks = list(range(8))
        ranks[slot + 1] = ranks[slot]
        yield f"slots {slot + 1} and {slot + 2} at one place", 8, owners_at(ranks)
        ranks = list(range(8))
        ranks[slot], ranks[slot + 1] = ranks[slot + 1], ranks[slot]
        yield f"slots {slot + 1} and {slot + 2} falling", 8, owners_at(ranks)
    yield "places falling throughout", 8, owners_at(range(7, -1, -1))
    yield "the first place again at the end", 3, owners_at([0, 1, 0])
    yield "rising by the low bytes only", 2, owners_at([0x0100, 0x0001])
    yield "two owners at place 0", 2, [(0, 500_000), (0, 500_000)]


def wrong_parts():
    past = (ALL_PARTS + 2**16, ALL_PARTS + 2**24, 2**32 - 1)
    for total in (1, 999_999, 1_000_001, 2_000_000, *past):
        yield f"one owner of {total} parts", 1, [(0, total)]
    for last in (399_999, 400_001):
        yield f"two owners of {600_000 + last} parts", 2, [(0, 600_000), (1, last)]
    for slot in range(8):
        shares = split(7)
        shares.insert(slot, 0)
        yield f"no parts in slot {slot + 1}", 8, list(enumerate(shares))
        shares = split(8)
        shares[slot] += 1
        yield f"a part too many in slot {slot + 1}", 8, list(enumerate(shares))
        shares[slot] -= 2
        yield f"a part too few in slot {slot + 1}", 8, list(enumerate(shares))
    yield "no parts at all", 3, [(0, 0), (1, 0), (2, 0)]
    yield "one owner without parts", 1, [(0, 0)]
    yield from parts_past_32_bits()


def parts_past_32_bits():
    """Lists whose sum would be right if it were kept in 32 bits."""
    yield "half and half past 32 bits", 2, [(0, 2**31), (1, 2**31 + ALL_PARTS)]
    yield "nearly all past 32 bits", 2, [(0, 2**32 - 1), (1, ALL_PARTS + 1)]
    yield "minus one and one more, taken as signed", 2, [(0, ALL_PARTS + 1), (1, 2**32 - 1)]
    for turns in range(1, 8):
        parts = (turns * 2**32 + ALL_PARTS) // 8
        shares = [turns * 2**32 + ALL_PARTS - 7 * parts] + [parts] * 7
        yield f"eight parts past 32 bits {turns} times", 8, list(enumerate(shares))


def wrong_counts():
    """The count says another number of owners than there are."""
    for filled in (1, 2, 7, 8):
        for said in range(0, 10):
            if said != filled:
                yield f"{filled} owners said to be {said}", said, owners_at(range(filled))
    yield "256 less one owners", 255, owners_at(range(8))


def used_beyond_count():
    """Slots past the count that are not 0, and used slots that are."""
    whole = (0, ALL_PARTS)
    for slot in range(1, 8):
        for extra in ((slot, 0), (0, 1), (slot, 1), (0x0100, 0), (0, 2**24), (0xFFFF, 2**32 - 1)):
            slots = [whole] + [(0, 0)] * (slot - 1) + [extra]
            yield f"slot {slot + 1} unused but {extra}", 1, slots
    yield "the owner in the second slot", 1, [(0, 0), whole]
    yield "the owner in the last slot", 1, [(0, 0)] * 7 + [whole]
    yield "an empty slot between owners", 3, [(0, 500_000), (0, 0), (1, 500_000)]
    yield "an empty slot before the count ends", 2, [(0, 500_000), (0, 0), (1, 500_000)]
