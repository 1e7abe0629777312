"""Values that try a field: its limits, one past them, and telling bit patterns."""

from day_file import UNNAMED


def holdable(field):
    """The values that the field's bytes can hold."""
    span = 1 << (8 * field.width)
    return range(-span // 2, span // 2) if field.signed else range(span)


def limit_values(field):
    """Least and most, and one past each where the bytes can hold it."""
    wanted = [field.least - 1, field.least, field.most, field.most + 1]
    return [value for value in wanted if value in holdable(field)]


def bit_patterns(field):
    """All bits, all but the top bit, and each byte's lowest and highest bit alone."""
    bits = 8 * field.width
    patterns = [2**bits - 1, 2**(bits - 1) - 1]
    patterns += [1 << bit for bit in range(bits) if bit % 8 in (0, 7)]
    return [as_held(field, pattern) for pattern in patterns]


def as_held(field, pattern):
    top = 1 << (8 * field.width)
    return pattern - top if field.signed and pattern >= top // 2 else pattern


def patterned(fields):
    """Pairs of a field and a bit pattern.

    A field that stands alone gets every pattern. Of a field that is repeated for
    each hour or region, each repetition gets the next of its patterns.
    """
    turns = {}
    for field in fields:
        patterns = bit_patterns(field)
        if not is_repeated(field):
            yield from ((field, pattern) for pattern in patterns)
            continue
        column = field.name.rsplit(" ", 1)[0]
        turn = turns.get(column, 0)
        turns[column] = turn + 1
        yield field, patterns[turn % len(patterns)]


def is_repeated(field):
    return field.name[-1].isdigit()


def is_sampled(field):
    """Whether a field is tried where not all of them are: alone, or in a telling hour."""
    return not is_repeated(field) or field.name.rsplit(" ", 1)[1] in ("1", "8", "13", "24")


def unnamed_ranges(kind):
    """The unnamed bytes of a kind as ranges without gaps."""
    ranges = []
    for at in UNNAMED[kind]:
        if ranges and ranges[-1].stop == at:
            ranges[-1] = range(ranges[-1].start, at + 1)
        else:
            ranges.append(range(at, at + 1))
    return ranges


def unnamed_trials(kind, dice):
    """Unnamed bytes to try: both ends of each range, its middle, some by chance.

    Nine at either end, so that a reader that looks at eight at a time is tried at
    every offset.
    """
    for stretch in unnamed_ranges(kind):
        chosen = {*stretch[:9], *stretch[-9:], stretch[len(stretch) // 2]}
        chosen |= {dice.pick(stretch) for _ in range(8)}
        yield from sorted(chosen)
