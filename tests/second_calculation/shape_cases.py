"""File cases about the shape of a day: its length, its counts, and full-size days."""

from base_days import SEED, base_records, pairs, participants, resources
from day_file import ALL_PARTS, BLOCK_BYTES, FIELDS, FILE_BYTES_MOST, encode
from samples import (
    Dice, day, file_of, headed, of_owners, owners_at, participant, random_day, real_time, resource,
    with_bytes,
)
from small_day import small_day


def small_days():
    yield "the small day", small_day()
    yield "the base day", file_of(base_records())
    yield "least day", file_of(headed([participant(1)]))


# --- Lengths ------------------------------------------------------------------------


def lengths():
    yield from zeros_of_each_length()
    yield from small_day_cut_and_stretched()
    yield from longest_files()


def zeros_of_each_length():
    near_most = (65_024, 65_535, 65_536, 65_537, 66_048)
    for length in (0, 1, 2, 255, 256, 511, 512, 513, 1_023, 1_024, 1_025, 1_536, *near_most):
        yield f"{length} zeros", bytes(length)


def small_day_cut_and_stretched():
    data = small_day()
    for length in (1, 511, 512, 513, 1_024, 1_536, 2_047, 2_048, 2_049, 2_304, 2_559):
        yield f"small day cut to {length}", data[:length]
    for extra in (1, 2, 256, 511, 512, 513, 1_024):
        yield f"small day and {extra} zeros", data + bytes(extra)
    yield "small day twice", data + data
    yield "a zero before the small day", b"\0" + data
    yield "small day without its first byte", data[1:]


def longest_files():
    """Files of 128 blocks, the most there may be, and a little more or less."""
    data = file_of([day(48, 0), *participants(127)])
    yield "128 blocks, 127 participants", data
    for length in (FILE_BYTES_MOST - BLOCK_BYTES, FILE_BYTES_MOST - 1):
        yield f"128 blocks cut to {length}", data[:length]
    yield "128 blocks and a byte", data + b"\0"
    yield "128 blocks and a byte not 0", data + b"P"
    yield "129 blocks", data + encode(participant(128))
    lead = [day(1, 24), participant(1)]
    yield "128 blocks, 126 Resources", file_of([*lead, *resources(126)])
    yield "128 blocks, 63 pairs", file_of([*lead, *pairs(range(1, 64))])
    yield "128 days", encode(day(1, 0)) * 128
    yield from last_of_128_wrong(data)


def last_of_128_wrong(data):
    rest = data[:-BLOCK_BYTES]
    yield "the last of 128 without kind", rest + bytes(BLOCK_BYTES)
    yield "the last of 128 with a wrong check", with_bytes(data, len(data) - 4, [data[-4] ^ 1])
    heavy = participant(127, {"SCR weight": 10_000_001})
    yield "the last of 128 past a limit", rest + encode(heavy)
    yield "the last of 128 not rising", rest + encode(participant(126))


# --- Counts -------------------------------------------------------------------------


def counts_off():
    """D counts other blocks than there are."""
    blocks = file_of(base_records())[BLOCK_BYTES:]
    for p_off in (-1, 0, 1):
        for g_off in (-1, 0, 1):
            yield f"counts off by {p_off} and {g_off}", encode(day(2 + p_off, 2 + g_off)) + blocks
    for told in ((2, 24), (48, 2), (5, 2), (2, 0), (4, 1), (1, 4)):
        yield f"counts told as {told}", encode(day(*told)) + blocks
    yield "48 participants told as 47", file_of([day(47, 0), *participants(48)])
    yield "47 participants told as 48", file_of([day(48, 0), *participants(47)])
    yield "24 Resources told as 23", file_of([day(1, 23), participant(1), *resources(24)])
    yield "23 Resources told as 24", file_of([day(1, 24), participant(1), *resources(23)])
    yield "one Resource told as none", file_of([day(1, 0), participant(1), resource(1)])
    yield "no Resource told as one", file_of([day(1, 1), participant(1)])


def crowded_days():
    """More P or G blocks than a day may count: read to the end, and refused there."""
    for wanted in (49, 50, 63, 64, 65, 96, 100, 126, 127):
        yield f"{wanted} participants", file_of([day(48, 0), *participants(wanted)])
    yield "127 participants told as one", file_of([day(1, 0), *participants(127)])
    lead = [day(1, 24), participant(1)]
    for wanted in (25, 26, 31, 32, 33, 48, 49, 64, 90, 100, 126):
        yield f"{wanted} Resources", file_of([*lead, *resources(wanted)])
    for wanted in (25, 40, 63):
        yield f"{wanted} Resources with R", file_of([*lead, *pairs(range(1, wanted + 1))])
    yield from faults_in_crowds(lead)


def faults_in_crowds(lead):
    """The rules hold on past the 48th participant and the 24th Resource."""
    many = [day(48, 24), *participants(60), *resources(40, owners_at([1, 48, 59]))]
    yield "60 participants, 40 Resources", file_of(many)
    yield "an owner past 60 participants", file_of([*many, resource(99, [(60, ALL_PARTS)])])
    fifty = [day(48, 0), *participants(50)]
    yield "50 participants, then an equal one", file_of([*fifty, participant(50)])
    thirty = [*lead, *resources(30)]
    yield "30 Resources, then an equal one", file_of([*thirty, resource(30)])
    yield "30 Resources, then the R of the first", file_of([*thirty, real_time(1)])


# --- Full-size days -----------------------------------------------------------------


def full_days():
    """48 participants and 24 Resources, with and without their 24 R, and not quite."""
    whole = full_day_records()
    yield "full day", file_of(whole)
    yield "full day without R", file_of([r for r in whole if r.kind != "R"])
    yield "full day without the last R", file_of(whole[:-1])
    yield "full day without the last G and R", file_of(whole[:-2])
    yield "full day with an R twice", file_of([*whole, whole[-1]])
    yield "full day and one more G", file_of([*whole, resource(999_999)])
    dice = Dice(SEED)
    yield from full_days_past_a_limit(whole, dice)
    for filled in (5, 5, 5, 100):
        yield f"random full day, {filled} filled", file_of(random_day(dice, 48, 24, filled))


def full_day_records():
    records = [participant(n * 20_833, {"day-ahead load 1": n}) for n in range(1, 49)]
    for n in range(1, 25):
        number, owners = n * 41_666, owners_at(range(n, n + n % 8 + 1))
        records.append(resource(number, owners, {"region": n % 8 + 1}))
        records.append(real_time(number, {f"event {n}": n % 6, f"flag {n}": n % 4}))
    return headed(records)


def full_days_past_a_limit(whole, dice):
    for index in dice.some(range(1, len(whole)), 8):
        fields = [f for f in FIELDS[whole[index].kind] if not of_owners(f) and f.most != 255]
        field = dice.pick(fields)
        spoilt = whole[index].changed({field.name: field.most + 1})
        data = file_of([*whole[:index], spoilt, *whole[index + 1:]])
        yield f"full day, block {index} {field.name} past its most", data
