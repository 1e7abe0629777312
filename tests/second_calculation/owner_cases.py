"""File cases about the owners of a Resource."""

from base_days import participants
from day_file import ALL_PARTS, encode
from owner_trials import ownership_trials
from samples import (
    day, file_of, headed, mended, owned, owners_at, participant, resource,
)


def ownership():
    """Every way an owners' list can be right or wrong, among eight participants."""
    for label, said, owners in ownership_trials(8):
        records = [*participants(8, first=50), owned(resource(7), owners, said), resource(8)]
        yield label, file_of(headed(records))


def owners_bytes_turned():
    """Every byte of the owners' list with one bit turned over."""
    lead = headed([*participants(3), resource(7)])[:-1]
    block = encode(resource(7, owners_at([0, 2])))
    for at in range(120, 168):
        for bit in (0x01, 0x80):
            turned = mended(block, at, [block[at] ^ bit])
            yield f"byte {at}, bit {bit}", file_of(lead) + turned


def owners_among_participants():
    """An owner at the last place, one past it, and at 48, for many counts of P."""
    for wanted in (1, 2, 3, 8, 47, 48, 49, 60, 100, 126):
        lead = [day(min(wanted, 48), 1), *participants(wanted)]
        for place in sorted({0, wanted - 1, wanted, 47, 48}):
            records = [*lead, resource(7, [(place, ALL_PARTS)])]
            yield f"place {place} among {wanted}", file_of(records)
    yield "no participants at all", file_of([day(1, 1), resource(7)])
    yield "no participants and no parts", file_of([day(1, 1), resource(7, [(0, 0)])])
    later = [day(2, 1), participant(1), resource(7, owners_at([0, 1])), participant(2)]
    yield "the owner's P comes later", file_of(later)
