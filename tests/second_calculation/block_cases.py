"""The cases that are blocks by themselves: pairs of a label and 512 bytes.

A block by itself has no file around it: any known kind will do, any number within
its limits, and owners' places are below 48.
"""

from base_days import SEED, base_blocks, plain_right
from damage_cases import breaking, checks_gone_wrong
from day_file import BLOCK_BYTES, FIELDS, encode, with_check
from order_cases import STRANGE_KINDS, blank_of_kind
from owner_trials import ownership_trials
from samples import (
    Dice, mended, of_owners, owned, participant, random_owners, random_record, real_time, resource,
)
from trial_values import is_sampled, limit_values, patterned, unnamed_trials


def all_blocks():
    families = [
        base_alone, kinds_alone, numbers_alone, limits_alone, patterns_alone, unnamed_alone,
        ownership_alone, checks_alone, faults_alone, random_alone,
    ]
    for family in families:
        for label, block in family():
            yield f"{family.__name__}: {label}", block


def base_alone():
    for index, block in enumerate(base_blocks()):
        yield f"block {index} of the base day", block
    yield "zeros", bytes(BLOCK_BYTES)
    yield "all bits", bytes([0xFF] * BLOCK_BYTES)
    for kind in b"DPGR\xff":
        yield f"full block of kind {kind}", with_check(bytes([kind]) + bytes([0xFF] * 511))


def kinds_alone():
    for byte in STRANGE_KINDS:
        yield f"kind {byte}", blank_of_kind(byte)
    for kind in FIELDS:
        for byte in b"DPGRdpgr":
            yield f"{kind} renamed {byte}", mended(encode(plain_right(kind)), 0, [byte])


def numbers_alone():
    for number in (0, 1, 2, 255, 256, 65_536, 999_998, 999_999, 1_000_000, 2**24 + 1, 2**32 - 1):
        for make in (participant, resource, real_time):
            yield f"{make.__name__} {number}", encode(make(number))


def limits_alone():
    """Each field at its limits; of an hour's or region's fields some at either end."""
    for kind, fields in FIELDS.items():
        for field in (f for f in fields if not of_owners(f) and is_sampled(f)):
            for value in limit_values(field):
                record = plain_right(kind).changed({field.name: value})
                yield f"{kind} {field.name} {value}", encode(record)


def patterns_alone():
    for kind, fields in FIELDS.items():
        for field, value in patterned(f for f in fields if not of_owners(f) and is_sampled(f)):
            record = plain_right(kind).changed({field.name: value})
            yield f"{kind} {field.name} {value}", encode(record)


def unnamed_alone():
    dice = Dice(SEED + 7)
    for kind in FIELDS:
        block = encode(plain_right(kind))
        for at in dice.some(unnamed_trials(kind, dice), 16):
            yield f"{kind} byte {at}", mended(block, at, [dice.between(1, 255)])


def ownership_alone():
    for label, said, owners in ownership_trials(48):
        yield label, encode(owned(resource(7), owners, said))


def checks_alone():
    for index, block in enumerate(base_blocks()):
        for label, spoilt in checks_gone_wrong(block):
            yield f"block {index}: {label}", spoilt


def faults_alone():
    """A Resource's block that breaks several rules at once."""
    block = base_blocks()[5]
    for rules in ((2, 3), (2, 4), (2, 6), (3, 4), (3, 6), (4, 6), (2, 3, 4, 6)):
        yield f"breaks {rules}", breaking(block, rules)


def random_alone():
    dice = Dice(SEED + 8)
    for _ in range(24):
        yield "random", encode(random_alone_record(dice, filled=dice.pick([10, 100])))


def random_alone_record(dice, filled):
    """A right P, G or R with any number; a G has owners among 48."""
    kind = dice.pick("PGR")
    record = random_record(dice, kind, dice.between(1, 999_999), filled)
    return owned(record, random_owners(dice, 48)) if kind == "G" else record
