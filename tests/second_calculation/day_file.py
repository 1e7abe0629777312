"""The day file read and written a second time, to check the engine's answers.

Nothing here is shared with the engine: the tables and the code were made from
the rules of the format alone. A file is blocks of 512 bytes, each of a kind
named by its first byte:

    D  the day, once and first          P  a participant
    G  a Resource, day-ahead            R  the same Resource, real-time

Read on from `judge` (a file), `judge_block` (a block by itself) and
`writing_refusal` (a record offered for writing).
"""

from dataclasses import dataclass

BLOCK_BYTES = 512
CHECK_START = 508           # bytes 508 to 511 hold the check
FILE_BYTES_MOST = 65_536    # 128 blocks
PLACES_ALONE = 48           # owners' places lie below this where no file is around
ALL_PARTS = 1_000_000       # what the parts of a Resource's owners add up to

REGIONS = range(1, 9)
HOURS = range(1, 25)
SLOTS = range(1, 9)         # an owners' list always has eight slots, used or not

NUMBER_MOST = 999_999       # participants and Resources
LOAD_MOST = 10_000_000      # a participant's loads, deviations and weights
KWH_MOST = 2_000_000        # a Resource's energy in an hour
PRICE_MOST = 200_000        # cents per MWh, to either side of 0


# --- The tables ---------------------------------------------------------------


@dataclass(frozen=True)
class Field:
    """A named stretch of a block; it is signed if its least value is below 0."""

    name: str
    start: int
    width: int
    least: int
    most: int

    @property
    def signed(self):
        return self.least < 0

    def within(self, value):
        return self.least <= value <= self.most


def repeated(labels, start, *columns):
    """For each label one field a column, laid end to end from `start` on."""
    fields = []
    for label in labels:
        for name, width, least, most in columns:
            fields.append(Field(f"{name} {label}", start, width, least, most))
            start += width
    return fields


DAY = [
    Field("date", 4, 4, 1, 60_000),
    Field("version", 8, 2, 1, 999),
    Field("participants", 10, 1, 1, 48),
    Field("resources", 11, 1, 0, 24),
]

PARTICIPANT = [
    Field("number", 4, 4, 1, NUMBER_MOST),
    *repeated(
        REGIONS, 8,
        ("day-ahead load", 4, 0, LOAD_MOST),
        ("real-time load", 4, 0, LOAD_MOST),
        ("deviation", 4, 0, LOAD_MOST),
    ),
    Field("network load", 104, 4, 0, LOAD_MOST),
    Field("SCR weight", 108, 4, 0, LOAD_MOST),
]

# An owner's place and parts may have any value as fields: whether they are right
# is a question about the whole list, asked by `owners_are_right`.
RESOURCE = [
    Field("region", 1, 1, 1, 8),
    Field("minimum run time", 2, 1, 0, 24),
    Field("minimum down time", 3, 1, 0, 24),
    Field("number", 4, 4, 1, NUMBER_MOST),
    Field("start-up fee", 8, 4, 0, 100_000_000),
    Field("no-load fee", 12, 4, 0, 10_000_000),
    *repeated(HOURS, 16, ("price", 4, -PRICE_MOST, PRICE_MOST)),
    Field("hours on line", 112, 1, 0, 255),
    Field("owners", 113, 1, 1, 8),
    Field("self-scheduled", 116, 4, 0, 0x00FF_FFFF),
    *repeated(SLOTS, 120, ("place", 2, 0, 0xFFFF), ("parts", 4, 0, 0xFFFF_FFFF)),
    *repeated(HOURS, 168, ("cleared", 4, 0, KWH_MOST)),
    *repeated(HOURS, 264, ("LMP", 4, -PRICE_MOST, PRICE_MOST)),
    *repeated(HOURS, 360, ("flag", 1, 0, 2)),
]

REAL_TIME = [
    Field("number", 4, 4, 1, NUMBER_MOST),
    Field("economic minimum", 8, 4, 0, KWH_MOST),
    *repeated(
        HOURS, 12,
        ("dispatch point", 4, 0, KWH_MOST),
        ("metered", 4, 0, KWH_MOST),
        ("LMP", 4, -PRICE_MOST, PRICE_MOST),
    ),
    *repeated(HOURS, 300, ("event", 1, 0, 5)),
    *repeated(HOURS, 324, ("flag", 1, 0, 3)),
]

FIELDS = {"D": DAY, "P": PARTICIPANT, "G": RESOURCE, "R": REAL_TIME}

# Which kinds may stand right after which; None is the beginning of the file.
FOLLOWERS = {None: "D", "D": "PG", "P": "PG", "G": "GR", "R": "G"}


def bytes_of(field):
    return range(field.start, field.start + field.width)


def unnamed_bytes(kind):
    """The bytes of a block that belong to no field, the kind or the check."""
    named = {at for field in FIELDS[kind] for at in bytes_of(field)}
    return [at for at in range(1, CHECK_START) if at not in named]


UNNAMED = {kind: unnamed_bytes(kind) for kind in FIELDS}
RANK = {
    kind: {field.name: rank for rank, field in enumerate(fields)}
    for kind, fields in FIELDS.items()
}


# --- Records, blocks and answers ------------------------------------------------


@dataclass(frozen=True)
class Record:
    """A kind and the values of its fields, in the order of the format."""

    kind: str
    values: tuple

    def __getitem__(self, name):
        return self.values[RANK[self.kind][name]]

    def changed(self, changes):
        """The record with some values replaced, told by field name."""
        values = list(self.values)
        for name, value in changes.items():
            values[RANK[self.kind][name]] = value
        return Record(self.kind, tuple(values))

    def owners(self):
        """The eight slots of the owners' list, as pairs of place and parts."""
        return [(self[f"place {slot}"], self[f"parts {slot}"]) for slot in SLOTS]


@dataclass(frozen=True)
class Refusal:
    """Number, layer and the told values: the block, then the byte, if any."""

    number: int
    layer: str
    told: tuple = ()


@dataclass(frozen=True)
class Accepted:
    """The records of a file, or the one record of a block by itself."""

    records: tuple


def check_of(block):
    """Bytes 0 to 507 added up, the first once, the second twice, and so on."""
    return sum((at + 1) * block[at] for at in range(CHECK_START))


def with_check(block):
    """The block with the check that its other bytes ask for."""
    return bytes(block[:CHECK_START]) + check_of(block).to_bytes(4, "little")


def decode(block):
    """The record in a block of a known kind, whether its values are right or not."""
    kind = chr(block[0])
    return Record(kind, tuple(value_in(block, field) for field in FIELDS[kind]))


def value_in(block, field):
    raw = block[field.start:field.start + field.width]
    return int.from_bytes(raw, "little", signed=field.signed)


def encode(record):
    """The block that shows this record."""
    block = bytearray(BLOCK_BYTES)
    block[0] = ord(record.kind)
    for field, value in zip(FIELDS[record.kind], record.values, strict=True):
        raw = value.to_bytes(field.width, "little", signed=field.signed)
        block[field.start:field.start + field.width] = raw
    return with_check(block)


# --- The rules ------------------------------------------------------------------


@dataclass(frozen=True)
class Standing:
    """What a block must meet because of where it stands."""

    kinds: str              # the kinds that may stand here
    participant_above: int  # a P has a number above this
    resource_above: int     # a G has a number above this
    real_time: int | None   # an R has this number, None leaves it free
    places: int             # owners' places are below this


ALONE = Standing("DPGR", 0, 0, None, PLACES_ALONE)


def standing_after(records):
    """Where the next block stands, given the records before it in the file."""
    previous = records[-1] if records else None
    return Standing(
        kinds=FOLLOWERS[previous.kind if previous else None],
        participant_above=last_number(records, "P"),
        resource_above=last_number(records, "G"),
        real_time=previous["number"] if previous and previous.kind == "G" else None,
        places=count(records, "P"),
    )


def last_number(records, kind):
    return next((r["number"] for r in reversed(records) if r.kind == kind), 0)


def count(records, kind):
    return sum(record.kind == kind for record in records)


def judge(data):
    """A whole file: Accepted with its records, or the first Refusal."""
    if len(data) == 0 or len(data) % BLOCK_BYTES != 0 or len(data) > FILE_BYTES_MOST:
        return Refusal(1, "file")
    records = []
    for number, start in enumerate(range(0, len(data), BLOCK_BYTES)):
        block = data[start:start + BLOCK_BYTES]
        refusal = block_refusal(block, standing_after(records), number)
        if refusal:
            return refusal
        records.append(decode(block))
    if not counts_agree(records):
        return Refusal(7, "end")
    return Accepted(tuple(records))


def judge_block(block):
    """A block by itself, which is told as block 0."""
    refusal = block_refusal(block, ALONE, 0)
    return refusal if refusal else Accepted((decode(block),))


def counts_agree(records):
    day = records[0]
    return (day["participants"], day["resources"]) == (count(records, "P"), count(records, "G"))


def block_refusal(block, standing, number):
    """The first rule that the block breaks, or None.

    The rules are asked in the order of their numbers, whatever the bytes are.
    """
    if check_of(block) != int.from_bytes(block[CHECK_START:], "little"):
        return Refusal(2, "block", (number,))
    if chr(block[0]) not in standing.kinds:
        return Refusal(3, "block", (number,))
    record = decode(block)
    byte = min(faulty_bytes(block, record, standing), default=None)
    if byte is not None:
        return Refusal(4, "block", (number, byte))
    if not number_rises(record, standing):
        return Refusal(5, "block", (number,))
    if not owners_are_right(record, standing.places):
        return Refusal(6, "block", (number,))
    return None


def faulty_bytes(block, record, standing):
    """The starts of all faulty fields, and every unnamed byte that is not 0."""
    faulty = faulty_fields(record)
    faulty += [at for at in UNNAMED[record.kind] if block[at] != 0]
    if record.kind == "R" and standing.real_time not in (None, record["number"]):
        faulty.append(4)
    return faulty


def faulty_fields(record):
    """The starts of the fields whose values lie outside their limits."""
    pairs = zip(FIELDS[record.kind], record.values, strict=True)
    return [field.start for field, value in pairs if not field.within(value)]


def number_rises(record, standing):
    if record.kind == "P":
        return record["number"] > standing.participant_above
    if record.kind == "G":
        return record["number"] > standing.resource_above
    return True


def owners_are_right(record, places):
    """Rising places below `places`, parts above 0 that make the whole, 0 after."""
    if record.kind != "G":
        return True
    owners = record.owners()
    used, unused = owners[:record["owners"]], owners[record["owners"]:]
    ranks = [place for place, _ in used]
    shares = [parts for _, parts in used]
    return (
        all(slot == (0, 0) for slot in unused)
        and all(earlier < later for earlier, later in zip(ranks, ranks[1:]))
        and all(place < places for place in ranks)
        and all(parts > 0 for parts in shares)
        and sum(shares) == ALL_PARTS
    )


def writing_refusal(record, buffer_bytes):
    """Why a record is not written into a buffer of this size, or None.

    Its fields come first, then its owners, and the buffer's room last.
    """
    faulty = faulty_fields(record)
    if faulty:
        return Refusal(4, "writing", (min(faulty),))
    if not owners_are_right(record, PLACES_ALONE):
        return Refusal(6, "writing")
    if buffer_bytes < BLOCK_BYTES:
        return Refusal(18, "writing")
    return None
