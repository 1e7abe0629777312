"""File cases about single fields and unnamed bytes."""

from base_days import SEED, participants, plain_right, resources, short_day, short_day_of
from day_file import FIELDS, UNNAMED, encode
from samples import Dice, file_of, mended, of_owners
from trial_values import limit_values, patterned, unnamed_ranges, unnamed_trials


def limits():
    """Each field alone at its limits and one past them."""
    for kind, fields in FIELDS.items():
        for field in (f for f in fields if not of_owners(f)):
            for value in limit_values(field):
                record = plain_right(kind).changed({field.name: value})
                yield f"{kind} {field.name} {value}", short_day_of(record)


def patterns():
    """Each field with telling bits."""
    for kind, fields in FIELDS.items():
        for field, value in patterned(f for f in fields if not of_owners(f)):
            record = plain_right(kind).changed({field.name: value})
            yield f"{kind} {field.name} {value}", short_day_of(record)


def limits_all_at_once():
    """All fields of a kind at their least, then all at their most."""
    for end in ("least", "most"):
        for kind, fields in FIELDS.items():
            others = [f for f in fields if f.name != "number" and not of_owners(f)]
            record = plain_right(kind).changed({f.name: getattr(f, end) for f in others})
            yield f"{kind} all {end}", short_day_of(record)
            if kind == "D":
                full = file_of([record, *participants(48), *resources(24)])
                yield f"D all {end} before a full day", full


# --- Unnamed bytes ------------------------------------------------------------------


def unnamed_bytes_set():
    dice = Dice(SEED + 1)
    for kind in FIELDS:
        for at in unnamed_trials(kind, dice):
            value = dice.pick([1, 2, 0x10, 0x80, 0xFF])
            yield f"{kind} byte {at} is {value}", day_with_bytes(kind, [at], value)
        yield from several_unnamed(kind, dice)


def several_unnamed(kind, dice):
    for stretch in unnamed_ranges(kind):
        yield f"{kind} all of {stretch}", day_with_bytes(kind, stretch, 0xFF)
        yield f"{kind} ends of {stretch}", day_with_bytes(kind, [stretch[0], stretch[-1]], 1)
    for wanted in (2, 3, 5):
        chosen = dice.some(UNNAMED[kind], wanted)
        yield f"{kind} bytes {chosen}", day_with_bytes(kind, chosen, 7)


def day_with_bytes(kind, places, value):
    """A short day whose block of this kind has some bytes set, its check right."""
    block = encode(plain_right(kind))
    for at in places:
        block = mended(block, at, [value])
    return short_day(block)


# --- Two at once --------------------------------------------------------------------


def first_of_two_faults():
    """Two faulty fields or bytes in one block: the one that starts first is told."""
    dice = Dice(SEED + 2)
    for kind, fields in FIELDS.items():
        able = [f for f in fields if not of_owners(f) and f.most + 1 in limit_values(f)]
        for _ in range(12):
            one, other = dice.some(able, 2)
            both = {one.name: one.most + 1, other.name: other.most + 1}
            record = plain_right(kind).changed(both)
            yield f"{kind} {one.name} and {other.name}", short_day_of(record)
        for _ in range(12):
            field, at = dice.pick(able), dice.pick(UNNAMED[kind])
            block = encode(plain_right(kind).changed({field.name: field.most + 1}))
            yield f"{kind} {field.name} and byte {at}", short_day(mended(block, at, [3]))
