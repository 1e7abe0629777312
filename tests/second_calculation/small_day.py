"""The small day: three participants and one Resource, in five blocks."""

from samples import day, file_of, participant, resource


def small_day():
    """The bytes of the small day."""
    return file_of(small_day_records())


def small_day_records():
    return [
        day(participants=3, resources=1, date=20_000, version=1),
        participant(101, {"day-ahead load 1": 0, "day-ahead load 2": 1_000}),
        participant(102, {"day-ahead load 1": 1_000, "day-ahead load 2": 0}),
        participant(103, {"day-ahead load 1": 500, "day-ahead load 2": 500}),
        resource(7, owners=[(0, 600_000), (1, 400_000)], changes={
            "region": 1,
            "start-up fee": 10_000, "no-load fee": 1_000,
            "cleared 10": 100_000, "cleared 11": 50_000,
            "price 10": 4_000, "price 11": 4_000,
            "LMP 10": 3_500, "LMP 11": 3_500,
            "flag 10": 0, "flag 11": 1,
        }),
    ]
