"""Right days that the cases start from and then spoil."""

from day_file import ALL_PARTS, encode
from samples import day, headed, participant, real_time, resource

SEED = 20_030_301


def base_records():
    """Six blocks with something in most columns: D P P G R G."""
    return headed([
        participant(101, {"day-ahead load 1": 5_000, "deviation 8": 70, "network load": 9}),
        participant(205, {"real-time load 2": 10_000_000, "SCR weight": 300}),
        resource(7, [(0, 250_000), (1, 750_000)], {
            "minimum run time": 4, "start-up fee": 1_000_000, "price 1": -1, "price 24": 6_500,
            "hours on line": 3, "self-scheduled": 0x00C0_0007, "cleared 5": 2_000, "LMP 5": -150,
            "flag 5": 2,
        }),
        real_time(7, {
            "economic minimum": 800, "dispatch point 6": 1_200, "metered 6": 1_100, "LMP 6": -90,
            "event 6": 1, "event 7": 3, "flag 6": 3,
        }),
        resource(9, [(1, ALL_PARTS)], {"region": 8, "cleared 24": 2_000_000}),
    ])


def base_blocks():
    return [encode(record) for record in base_records()]


def participants(wanted, first=1):
    return [participant(number) for number in range(first, first + wanted)]


def resources(wanted, owners=((0, ALL_PARTS),)):
    return [resource(number, owners) for number in range(1, wanted + 1)]


def pairs(numbers):
    """A G and its R for each number."""
    return [record for n in numbers for record in (resource(n), real_time(n))]


# --- Short days around one record ---------------------------------------------------


def plain_right(kind):
    """The record of a kind that stands right in the short day of that kind."""
    return {"D": day(1, 0), "P": participant(1), "G": resource(7), "R": real_time(7)}[kind]


def short_day(block):
    """The block in a day of as few others as it needs; its kind says which."""
    kind = chr(block[0])
    if kind == "D":
        return block + encode(participant(1))
    lead = {
        "P": [day(1, 0)],
        "G": [day(1, 1), participant(1)],
        "R": [day(1, 1), participant(1), resource(7)],
    }[kind]
    return b"".join(encode(record) for record in lead) + block


def short_day_of(record):
    return short_day(encode(record))
