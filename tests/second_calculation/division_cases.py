"""The cases that are divisions of cents: label, cents, weights.

What is expected of a division is said by none of them: division.py divides them all.
"""

from itertools import product
from math import gcd

from base_days import SEED
from samples import Dice

WEIGHT_MOST = 100_000_000
CENTS_USUAL_MOST = 100_000_000_000      # the engine's own divisions stay within this
RECORDS_USUAL_MOST = 48                 # and this
CENTS_MOST = 2**64 - 1

GREAT_AMOUNTS = [
    2**32 - 1, 2**32, CENTS_USUAL_MOST - 1, CENTS_USUAL_MOST, CENTS_USUAL_MOST + 1,
    2**53 + 1, 2**63 - 1, 2**63, CENTS_MOST - 1, CENTS_MOST,
]


def all_divisions():
    families = [
        worked, no_records, one_record, weights_all_zero, no_cents, every_small_division,
        equal_weights, every_number_of_cents_left, zeros_among_others, ties_of_unequal_weights,
        neighbouring_remainders, fewer_cents_than_records, whole_shares, far_apart_weights,
        heaviest_in_turn, great_amounts, sums_of_weights_around_32_bits, random_usual,
        random_many_records, random_any_amount,
    ]
    for family in families:
        for label, cents, weights in family():
            yield f"{family.__name__}: {label}", cents, weights


# --- Few records, no weights, no cents --------------------------------------------------


def worked():
    yield "100 over three alike", 100, [1, 1, 1]
    yield "1 over 1 and 2", 1, [1, 2]
    yield "1 over 2 and 1", 1, [2, 1]
    yield "10 over 1, 2 and 3", 10, [1, 2, 3]
    yield "a tie that the lighter one wins", 3, [2, 7, 6]
    yield "a tie that the heavier one wins", 3, [7, 2, 6]


def no_records():
    for cents in (0, 1, 2, CENTS_USUAL_MOST, CENTS_MOST):
        yield f"{cents}", cents, []


def one_record():
    for weight in (0, 1, 2, 3, WEIGHT_MOST - 1, WEIGHT_MOST):
        for cents in (0, 1, 2, CENTS_USUAL_MOST, CENTS_MOST):
            yield f"{cents} over {weight}", cents, [weight]


def weights_all_zero():
    for records in (2, 3, 8, 24, 47, 48, 49, 200):
        for cents in (0, 1, CENTS_USUAL_MOST, CENTS_MOST):
            yield f"{cents} over {records}", cents, [0] * records


def no_cents():
    for records in (2, 3, 48, 49, 200):
        yield f"{records} alike", 0, [WEIGHT_MOST] * records
        yield f"{records} rising", 0, list(range(records))


def every_small_division():
    """All there are with few records, small weights and few cents."""
    for records, weights_tried, cents_most in ((2, range(4), 5), (3, range(4), 4), (4, (1, 2), 4)):
        for weights in product(weights_tried, repeat=records):
            for cents in range(1, cents_most + 1):
                yield f"{cents} over {weights}", cents, list(weights)


# --- Ties and near ties -----------------------------------------------------------------


def equal_weights():
    for records in (2, 3, 5, 7, 24, 47, 48, 49, 64, 100, 199, 200):
        for weight in (1, 7, WEIGHT_MOST):
            for cents in (1, records - 1, 2 * records + records // 2, CENTS_USUAL_MOST - 1):
                yield f"{cents} over {records} of {weight}", cents, [weight] * records


def every_number_of_cents_left():
    """48 records and 0 to 47 cents left over, all weights alike or no two of them."""
    dice = Dice(SEED + 11)
    records = RECORDS_USUAL_MOST
    for left in range(records):
        cents = records * dice.between(0, 2_000_000_000) + left
        yield f"{left} of {records} alike", cents, [WEIGHT_MOST] * records
        residues = [left] * records
        yield f"{left} of {records} unlike", *tied(dice, residues, records, spread=2_000_000)


def zeros_among_others():
    """Zero weights before, behind and between others, and all weights zero but one."""
    for records in (2, 3, 9, 48, 49, 200):
        half = records // 2
        sevens = [7] * (records - half)
        yield f"{half} zeros, then others", half + 1, [0] * half + sevens
        yield f"others, then {half} zeros", half + 1, sevens + [0] * half
        yield f"every second of {records}", half + 2, [rank % 2 * 5 for rank in range(records)]
        for place in sorted({0, half, records - 1}):
            yield f"all zero but {place} of {records}", 17, one_apart(place, records, 1, 0)
            yield f"only {place} of {records} zero", records + 1, one_apart(place, records, 0, 3)


def ties_of_unequal_weights():
    """Groups of equal remainders with unequal weights; mostly the cents end within one."""
    dice = Dice(SEED + 12)
    for base in (2, 2, 3, 4, 5, 6, 8, 12):
        for records in (2, 3, 4, 6, 10, 24, 48, 49, 120):
            residues = residues_that_close(dice, records, base)
            spread = dice.pick([1, 3, 1_000, WEIGHT_MOST // base - 1])
            yield f"{records} records, {base} groups", *tied(dice, residues, base, spread)


def residues_that_close(dice, records, base):
    """Numbers below the base that add up to a multiple of it, not all of them 0."""
    residues = [dice.below(base) for _ in range(records - 1)]
    residues.append(-sum(residues) % base)
    return residues if any(residues) else [1, base - 1] + residues[2:]


def tied(dice, residues, base, spread):
    """Cents and weights whose remainders are to each other as the residues are.

    The weights have these residues by the base, and the residues add up to a multiple of
    it. Then the sum W has the divisor `base`, and W / base cents times a weight have the
    remainder (W / base) × residue by W.
    """
    weights = [residue + base * dice.between(0, spread) for residue in residues]
    return grown(dice, sum(weights) // base, sum(weights)), weights


def grown(dice, cents, total):
    """The cents with some multiple of the sum of weights more: the remainders stay."""
    return cents + total * dice.pick([0, 0, 1, 2, dice.between(0, CENTS_USUAL_MOST // total)])


def neighbouring_remainders():
    """Unequal weights whose remainders are whole numbers next to each other.

    The weights go up in steps, and the cents times a step have the remainder 1.
    """
    dice = Dice(SEED + 13)
    for records in (2, 3, 4, 5, 8, 13, 24, 47, 48, 49, 130, 200):
        for step_most in (1, 50, WEIGHT_MOST // records // 2, WEIGHT_MOST // records // 2):
            step, weights = steps_without_common_divisor(dice, records, step_most)
            cents = pow(step, -1, sum(weights))
            yield f"{records} by {step}", grown(dice, cents, sum(weights)), weights


def steps_without_common_divisor(dice, records, step_most):
    """Weights in steps, shuffled; the step has no divisor in common with their sum."""
    while True:
        step = dice.between(1, step_most)
        least = dice.between(1, WEIGHT_MOST // 2)
        weights = shuffled(dice, [least + step * rank for rank in range(records)])
        if gcd(step, sum(weights)) == 1:
            return step, weights


def shuffled(dice, values):
    left = list(values)
    return [left.pop(dice.below(len(left))) for _ in values]


# --- Few cents, and none left over ------------------------------------------------------


def fewer_cents_than_records():
    dice = Dice(SEED + 14)
    for records in (2, 3, 5, 12, 24, 48, 49, 96, 200):
        weights = [dice.between(0, 20) for _ in range(records - 1)] + [20]
        for cents in sorted({1, 2, records // 2, records - 1}):
            yield f"{cents} over {records}", cents, weights


def whole_shares():
    """The sum of weights divides the cents, or is a little off."""
    dice = Dice(SEED + 15)
    for records in (2, 3, 10, 48, 49, 200):
        weights = random_weights(dice, records, CENTS_USUAL_MOST // records // 100)
        times = dice.between(1, CENTS_USUAL_MOST // sum(weights))
        for off in (-1, 0, 1):
            yield f"{records} records, {off} off", times * sum(weights) + off, weights


# --- Light and heavy --------------------------------------------------------------------


def far_apart_weights():
    """The weights 1 and 100,000,000, in turn and mixed."""
    dice = Dice(SEED + 16)
    for records in (2, 3, 7, 47, 48, 49, 200):
        in_turn = [1 if rank % 2 else WEIGHT_MOST for rank in range(records)]
        for cents in (1, records, 99_999_999, CENTS_USUAL_MOST, CENTS_MOST):
            yield f"{cents} over {records} in turn", cents, in_turn
            yield f"{cents} over {records} mixed", cents, shuffled(dice, in_turn)


def heaviest_in_turn():
    """Each record the heaviest once, the others alike."""
    for records, cents in ((3, 5), (8, 12_345), (48, 1_000_003), (49, 100)):
        for place in range(records):
            weights = one_apart(place, records, WEIGHT_MOST, 33_333_333)
            yield f"{place} of {records}", cents, weights


def one_apart(place, records, there, elsewhere):
    """Weights that are all alike but for the one at this place."""
    return [there if rank == place else elsewhere for rank in range(records)]


# --- The largest of all -----------------------------------------------------------------


def great_amounts():
    for records in (1, 2, 3, 24, 47, 48, 49, 200):
        for cents in GREAT_AMOUNTS:
            yield f"{cents} over {records} alike", cents, [WEIGHT_MOST] * records
            falling = [WEIGHT_MOST - rank for rank in range(records)]
            yield f"{cents} over {records} falling", cents, falling


def sums_of_weights_around_32_bits():
    """Heavy records whose weights add up to 2^31 or 2^32, or one more or less."""
    for total in (2**31 - 1, 2**31, 2**31 + 1, 2**32 - 1, 2**32, 2**32 + 1):
        weights = [WEIGHT_MOST] * (total // WEIGHT_MOST) + [total % WEIGHT_MOST]
        for cents in (1, total - 1, total + 1, CENTS_USUAL_MOST):
            yield f"{cents} over {total}", cents, weights


# --- Chance -----------------------------------------------------------------------------


def random_usual():
    """Every number of records from 2 to 48, some times over."""
    dice = Dice(SEED + 17)
    for records in 4 * list(range(2, RECORDS_USUAL_MOST + 1)):
        yield random_division(dice, records, random_cents(dice, CENTS_USUAL_MOST))


def random_many_records():
    dice = Dice(SEED + 18)
    for _ in range(60):
        records = dice.between(RECORDS_USUAL_MOST + 1, 200)
        yield random_division(dice, records, random_cents(dice, CENTS_USUAL_MOST))


def random_any_amount():
    dice = Dice(SEED + 19)
    for _ in range(60):
        cents = dice.below(2**32) * 2**32 + dice.below(2**32)
        yield random_division(dice, dice.between(2, 60), cents >> dice.below(32))


def random_division(dice, records, cents):
    most = dice.pick([1, 3, 10, 1_000, 10_000_000, WEIGHT_MOST, WEIGHT_MOST])
    return f"{records} records to {most}", cents, random_weights(dice, records, most)


def random_weights(dice, records, most):
    """Weights that are not all 0; of some lists many are."""
    zeros = dice.pick([0, 0, 20, 80])
    weights = [
        0 if dice.below(100) < zeros else dice.between(0, min(most, WEIGHT_MOST))
        for _ in range(records)
    ]
    return weights if any(weights) else [1] + weights[1:]


def random_cents(dice, most):
    return dice.between(1, dice.pick([10, 100, 10_000, 10_000_000, most, most]))
