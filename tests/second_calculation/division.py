"""Whole cents divided over weighted records, to check the engine's shares.

The rule: of C cents over weights w that add up to W each record gets the whole part of
C × w / W. The cents left over go one each to the largest remainders of C × w by W,
among equal remainders to the earlier record. 0 cents give zeros whatever the weights
are. Cents over weights that add up to 0 cannot be divided.

Nothing here puts remainders in order. What is looked for is the division closest to the
exact shares C × w / W and, among equally close ones, the one that gives to the earlier
records. This is why it is the same:

A record with a cents is |W × a - C × w| off; all distances are counted in W-ths of a
cent, so that they are whole numbers. Let r be the remainder of C × w by W. At its whole
part a record is r off, and one cent above it W - r. If the cents left over, k of them,
go to k different records, then all distances together are

    (all r together) + k × W - 2 × (the r of those k records together),

which is least where those k remainders add up to the most: at the k largest ones. Two
choices that add up to the most differ only in records with the same remainder, so the
one whose places come first is the one where ties go to the earlier record.

No division into whole cents whatever is closer, and the equally close ones are all of
this form. Count what a record's next cent is worth: by how much it brings the record
nearer. Up to the whole part that is W for every cent, then 2r - W for one cent, and -W
for every cent after. It never rises, so the closest divisions are those that give one
cent after the other where it is worth most. As 2r - W is below W, all whole parts are
reached first. Then k cents are left; the remainders are all below W and add up to
k × W, so if k is not 0, more than k of them are above 0, and as many records have a
next cent worth more than -W. The k cents therefore go one each to the largest
remainders, and nobody gets a second cent above the whole part.
"""

from fractions import Fraction
from heapq import heapify, heapreplace
from itertools import combinations
from math import comb

WAYS_MOST = 1_000       # where there are more ways to try, the shares are found by choosing


def divide(cents, weights):
    """The records' shares in their order, or None where nothing can be divided."""
    if cents == 0:
        return (0,) * len(weights)
    if sum(weights) == 0:
        return None
    if ways_to_try(cents, weights) <= WAYS_MOST:
        return by_trying(cents, weights)
    return by_choosing(cents, weights)


def distance(cents, weights, shares):
    """How far the shares are from the exact ones, all together, in W-ths of a cent."""
    total = sum(weights)
    return sum(
        abs(total * share - cents * weight)
        for share, weight in zip(shares, weights, strict=True)
    )


# --- Few ways: trying every one to hand out the cents left over ------------------------


def by_trying(cents, weights):
    """Of all ways to hand out the cents left over, one each, the closest.

    Ways to earlier places come first, and `min` takes the first of the equally close.
    """
    whole = whole_parts(cents, weights)
    ways = combinations(range(len(weights)), cents - sum(whole))
    tried = (handed_out(whole, way) for way in ways)
    return min(tried, key=lambda shares: distance(cents, weights, shares))


def ways_to_try(cents, weights):
    return comb(len(weights), cents - sum(whole_parts(cents, weights)))


def whole_parts(cents, weights):
    total = sum(weights)
    return [cents * weight // total for weight in weights]


def handed_out(whole, way):
    """The whole parts with a cent more at each of these places."""
    return tuple(part + (place in way) for place, part in enumerate(whole))


# --- Many ways: cent after cent to where it is worth most ------------------------------


def by_choosing(cents, weights):
    """From shares that are surely not too large, cent after cent where it is worth most.

    Each record offers its next cent; the heap has the best offer first, among equal
    ones that of the earlier record.
    """
    total = sum(weights)
    exact = [Fraction(cents * weight, total) for weight in weights]
    shares = [max(round(share) - 1, 0) for share in exact]
    offers = [(-worth(exact[place], shares[place]), place) for place in range(len(weights))]
    heapify(offers)
    for _ in range(cents - sum(shares)):
        _, place = offers[0]
        shares[place] += 1
        heapreplace(offers, (-worth(exact[place], shares[place]), place))
    return tuple(shares)


def worth(exact, share):
    """By how much one more cent brings a share nearer to the exact one."""
    return abs(share - exact) - abs(share + 1 - exact)


# --- Tiny cases: every division into whole cents there is ------------------------------


def closest_of_all(cents, weights):
    """The closest of all divisions, whole parts or not, the first of the equally close."""
    divisions = every_division(cents, len(weights))
    return min(divisions, key=lambda shares: distance(cents, weights, shares))


def every_division(cents, records):
    """All ways to divide the cents; those that give more to earlier records come first."""
    if records == 1:
        yield (cents,)
        return
    for first in range(cents, -1, -1):
        for others in every_division(cents - first, records - 1):
            yield (first, *others)


def divisions_there_are(cents, records):
    return comb(cents + records - 1, records - 1)
