"""The cases that are records offered for writing: label, record, size of the buffer.

Values are offered only if a caller can form them: whatever fits the bytes of the
field, but flags only up to 3 and events only up to 5.
"""

from base_days import SEED, base_records, plain_right
from block_cases import random_alone_record
from day_file import ALL_PARTS, BLOCK_BYTES, FIELDS
from owner_trials import ownership_trials
from samples import Dice, of_owners, owned, resource
from small_day import small_day_records
from trial_values import is_sampled, limit_values, patterned


def all_records():
    families = [
        records_of_days, limits_offered, patterns_offered, ownership_offered, buffer_sizes,
        several_faults_offered, two_fields_offered, random_offered,
    ]
    for family in families:
        for label, record, buffer_bytes in family():
            yield f"{family.__name__}: {label}", record, buffer_bytes


def formable(field, value):
    """Whether a caller can offer this value in this field."""
    if field.name.startswith("flag "):
        return value <= 3
    if field.name.startswith("event "):
        return value <= 5
    return True


def records_of_days():
    for record in [*small_day_records(), *base_records()]:
        yield record.kind, record, BLOCK_BYTES


def limits_offered():
    """One past every field's limits, and some fields at their limits."""
    for kind, fields in FIELDS.items():
        for field in (f for f in fields if not of_owners(f)):
            for value in limit_values(field):
                if formable(field, value) and (is_sampled(field) or not field.within(value)):
                    record = plain_right(kind).changed({field.name: value})
                    yield f"{kind} {field.name} {value}", record, BLOCK_BYTES


def patterns_offered():
    for kind, fields in FIELDS.items():
        for field, value in patterned(f for f in fields if not of_owners(f) and is_sampled(f)):
            if formable(field, value):
                record = plain_right(kind).changed({field.name: value})
                yield f"{kind} {field.name} {value}", record, BLOCK_BYTES


def ownership_offered():
    """The owners' lists that a block by itself is tried with."""
    for label, said, owners in ownership_trials(48):
        yield label, owned(resource(7), owners, said), BLOCK_BYTES


def buffer_sizes():
    for kind in FIELDS:
        for size in (0, 1, 255, 256, 508, 511, 512, 513, 1_023, 1_024, 65_535):
            yield f"{kind} into {size}", plain_right(kind), size


def several_faults_offered():
    """A faulty field comes before wrong owners, and these before a short buffer."""
    unowned = resource(7, [(48, ALL_PARTS)])
    for size in (0, 511, 512):
        yield f"owners, {size}", unowned, size
        yield f"owners without parts, {size}", resource(7, [(0, 0)]), size
        yield f"last field and owners, {size}", unowned.changed({"flag 24": 3}), size
        yield f"first field and owners, {size}", unowned.changed({"region": 0}), size
        yield f"count of owners, {size}", unowned.changed({"owners": 9}), size
        for kind in FIELDS:
            yield f"{kind} much too large, {size}", much_too_large(kind), size


def much_too_large(kind):
    """Every field that a caller can put past its most is there."""
    past = {f.name: f.most + 1 for f in FIELDS[kind] if f.most + 1 in limit_values(f)}
    formed = {f.name for f in FIELDS[kind] if formable(f, f.most + 1)}
    return plain_right(kind).changed({name: past[name] for name in past if name in formed})


def two_fields_offered():
    dice = Dice(SEED + 9)
    for kind, fields in FIELDS.items():
        able = [f for f in fields if not of_owners(f) and f.width > 1]
        for _ in range(6):
            one, other = dice.some(able, 2)
            both = {one.name: one.most + 1, other.name: other.most + 1}
            label = f"{kind} {one.name} and {other.name}"
            yield label, plain_right(kind).changed(both), dice.pick([511, 512])


def random_offered():
    dice = Dice(SEED + 10)
    for _ in range(48):
        record = random_alone_record(dice, filled=dice.pick([10, 50, 100]))
        yield "random", record, dice.pick([511, 512, 513, 600])
