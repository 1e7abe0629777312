"""Building blocks of the cases: plain records, whole files, random days, dice."""

from day_file import (
    ALL_PARTS, BLOCK_BYTES, FIELDS, SLOTS, Record, count, encode, with_check,
)


# --- Records and files ------------------------------------------------------------


def plain(kind):
    """A record of this kind in which every field is 0, or its least above 0."""
    return Record(kind, tuple(max(field.least, 0) for field in FIELDS[kind]))


def day(participants, resources, date=20_000, version=1):
    return plain("D").changed({
        "date": date, "version": version,
        "participants": participants, "resources": resources,
    })


def participant(number, changes=None):
    return plain("P").changed({"number": number, **(changes or {})})


def resource(number, owners=((0, ALL_PARTS),), changes=None):
    return owned(plain("G").changed({"number": number, **(changes or {})}), owners)


def real_time(number, changes=None):
    return plain("R").changed({"number": number, **(changes or {})})


def owned(record, owners, said=None):
    """A Resource with these owners; `said` tells another count than there are."""
    changes = {"owners": len(owners) if said is None else said}
    for slot in SLOTS:
        place, parts = owners[slot - 1] if slot <= len(owners) else (0, 0)
        changes |= {f"place {slot}": place, f"parts {slot}": parts}
    return record.changed(changes)


def split(owners):
    """The whole in so many nearly equal parts, the first one the largest."""
    part = ALL_PARTS // owners
    return [ALL_PARTS - part * (owners - 1)] + [part] * (owners - 1)


def owners_at(places):
    return list(zip(places, split(len(places))))


def headed(records):
    """The records behind a D that counts them rightly."""
    return [day(count(records, "P"), count(records, "G")), *records]


def file_of(records):
    return b"".join(encode(record) for record in records)


def blocks_of(data):
    return [data[start:start + BLOCK_BYTES] for start in range(0, len(data), BLOCK_BYTES)]


def with_bytes(data, start, new):
    """The data with the bytes from `start` on overwritten."""
    return data[:start] + bytes(new) + data[start + len(new):]


def mended(block, start, new):
    """The block with some bytes overwritten and its check made right again."""
    return with_check(with_bytes(block, start, new))


# --- Chance ------------------------------------------------------------------------


class Dice:
    """A generator of our own, so that every Python throws the same numbers."""

    def __init__(self, seed):
        self.state = seed

    def below(self, limit):
        self.state = (self.state * 6_364_136_223_846_793_005 + 1_442_695_040_888_963_407) % 2**64
        return (self.state >> 24) % limit

    def between(self, least, most):
        return least + self.below(most - least + 1)

    def pick(self, choices):
        return choices[self.below(len(choices))]

    def some(self, choices, wanted):
        """So many different choices, in their own order."""
        left = list(choices)
        while len(left) > wanted:
            left.pop(self.below(len(left)))
        return left


# --- Random days -------------------------------------------------------------------


def random_day(dice, participants, resources, filled):
    """A right day; of 100 fields about `filled` are not left at 0 or their least.

    About every second Resource has a real-time record.
    """
    records = [random_record(dice, "P", number, filled) for number in rising(dice, participants)]
    for number in rising(dice, resources):
        record = random_record(dice, "G", number, filled)
        records.append(owned(record, random_owners(dice, participants)))
        if dice.below(2):
            records.append(random_record(dice, "R", number, filled))
    head = day(participants, resources, dice.between(1, 60_000), dice.between(1, 999))
    return [head, *records]


def random_record(dice, kind, number, filled):
    record = plain(kind)
    values = {
        field.name: telling_value(dice, field)
        for field in FIELDS[kind]
        if dice.below(100) < filled and not of_owners(field)
    }
    return record.changed({**values, "number": number})


def of_owners(field):
    return field.name == "owners" or field.name.startswith(("place ", "parts "))


def telling_value(dice, field):
    """A value within the limits: an extreme, one next to it, or any."""
    if dice.below(2):
        return dice.between(field.least, field.most)
    return dice.pick([field.least, field.least + 1, field.most - 1, field.most])


def rising(dice, wanted):
    """So many rising numbers, close together or wide apart, 999,999 sometimes last."""
    step = dice.pick([1, 3, 300, 999_999 // max(wanted, 1)])
    numbers, last = [], 0
    for _ in range(wanted):
        last += dice.between(1, step)
        numbers.append(last)
    if numbers and dice.below(3) == 0:
        numbers[-1] = 999_999
    return numbers


def random_owners(dice, participants):
    places = dice.some(range(participants), dice.between(1, min(8, participants)))
    cuts = dice.some(range(1, 60), len(places) - 1)
    edges = [0, *(cut * 16_667 for cut in cuts), ALL_PARTS]
    return [(place, high - low) for place, low, high in zip(places, edges, edges[1:])]
