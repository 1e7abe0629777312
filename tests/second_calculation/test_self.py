"""The second calculation looks at itself.

    python3 -m unittest test_self

A plain judge, written byte by byte without the tables of day_file.py, answers all
cases once more; packing by fixed layouts checks reading and writing of records; cents
are divided once more by the rule word by word; and the cases are asked whether they try
what they are meant to try.
"""

import struct
import tempfile
import unittest
from pathlib import Path

from case_book import BlockCase, CaseReader, DivisionCase, FileCase, RecordCase, digest
from day_file import (
    FIELDS, UNNAMED, Accepted, decode, encode, judge, judge_block, writing_refusal,
)
from division import (
    WAYS_MOST, by_choosing, by_trying, closest_of_all, divide, divisions_there_are, ways_to_try,
)
from division_cases import CENTS_MOST, CENTS_USUAL_MOST, RECORDS_USUAL_MOST, WEIGHT_MOST
from make_cases import book_of_cases, book_of_divisions, write_books
from record_cases import formable
from samples import blocks_of, of_owners
from small_day import small_day
from trial_values import limit_values, unnamed_ranges

BOOK = book_of_cases()
FILES = [case for case in BOOK.cases if isinstance(case, FileCase)]
BLOCKS = [case for case in BOOK.cases if isinstance(case, BlockCase)]
RECORDS = [case for case in BOOK.cases if isinstance(case, RecordCase)]
VERDICTS = [judge(case.data) for case in FILES]
DIVISION_BOOK = book_of_divisions()
SHARES = {case: divide(case.cents, case.weights) for case in DIVISION_BOOK.cases}
DIVIDED = {case: shares for case, shares in SHARES.items() if case.cents and shares}


# --- A plain judge: byte by byte, no tables -----------------------------------------


def u32(block, at):
    return block[at] + 256 * block[at + 1] + 65_536 * block[at + 2] + 16_777_216 * block[at + 3]


def price_is_wrong(block, at):
    """-200,000 to 200,000, seen as the bits of a two's complement number."""
    return 200_000 < u32(block, at) < 2**32 - 200_000


def wrong_in_day(block, at):
    if at == 4:
        return u32(block, 4) == 0 or u32(block, 4) > 60_000
    if at == 8:
        return not 0 < block[8] + 256 * block[9] < 1_000
    if at == 10:
        return not 0 < block[10] < 49
    if at == 11:
        return block[11] > 24
    return block[at] != 0 and at not in (5, 6, 7, 9)


def wrong_in_participant(block, at):
    if at == 4:
        return not 0 < u32(block, 4) < 1_000_000
    if 8 <= at < 112 and at % 4 == 0:
        return u32(block, at) > 10_000_000
    return block[at] != 0 and not 4 <= at < 112


def wrong_in_resource(block, at):
    if at in (2, 3):
        return block[at] > 24
    if at in (1, 113):
        return not 0 < block[at] < 9
    if at == 116:
        return block[119] != 0
    if 360 <= at < 384:
        return block[at] > 2
    if at % 4 == 0 and 4 <= at < 112:
        return wrong_in_resource_head(block, at)
    if at % 4 == 0 and 168 <= at < 264:
        return u32(block, at) > 2_000_000
    if at % 4 == 0 and 264 <= at < 360:
        return price_is_wrong(block, at)
    return block[at] != 0 and (at in (114, 115) or at >= 384)


def wrong_in_resource_head(block, at):
    if at == 4:
        return not 0 < u32(block, 4) < 1_000_000
    if at == 8:
        return u32(block, 8) > 100_000_000
    if at == 12:
        return u32(block, 12) > 10_000_000
    return price_is_wrong(block, at)


def wrong_in_real_time(block, at):
    if at == 4:
        return not 0 < u32(block, 4) < 1_000_000
    if at % 4 == 0 and 8 <= at < 300:
        is_price = at >= 12 and at % 12 == 8
        return price_is_wrong(block, at) if is_price else u32(block, at) > 2_000_000
    if 300 <= at < 324:
        return block[at] > 5
    if 324 <= at < 348:
        return block[at] > 3
    return block[at] != 0 and not 4 <= at < 300


WRONG_AT = {
    68: wrong_in_day, 80: wrong_in_participant, 71: wrong_in_resource, 82: wrong_in_real_time,
}


def owners_wrong(block, places):
    """Slot by slot; the sum is compared at the end."""
    before, parts_so_far = -1, 0
    for slot in range(8):
        at = 120 + 6 * slot
        place, parts = block[at] + 256 * block[at + 1], u32(block, at + 2)
        if slot >= block[113]:
            if place or parts:
                return True
            continue
        if place <= before or place >= places or parts == 0:
            return True
        before, parts_so_far = place, parts_so_far + parts
    return parts_so_far != 1_000_000


class PlainJudge:
    """Walks over a file once and keeps what it needs to know of the blocks before."""

    def __init__(self):
        self.previous = 0
        self.participants = self.resources = 0
        self.last_participant = self.last_resource = 0

    def file(self, data):
        if not 512 <= len(data) <= 65_536 or len(data) % 512:
            return "refused 1 file"
        for index in range(len(data) // 512):
            block = data[512 * index:512 * index + 512]
            fault = self.fault(block)
            if fault:
                return told_fault(fault, index)
            self.note(block)
        if data[10] != self.participants or data[11] != self.resources:
            return "refused 7 end"
        return self.accepted(data)

    def fault(self, block):
        if weighted_sum(block) != u32(block, 508):
            return 2, None
        if not self.in_order(block[0]):
            return 3, None
        for at in range(1, 508):
            of_another = at == 4 and block[0] == 82 and u32(block, 4) != self.last_resource
            if WRONG_AT[block[0]](block, at) or of_another:
                return 4, at
        return self.fault_among_blocks(block)

    def fault_among_blocks(self, block):
        if block[0] == 80 and u32(block, 4) <= self.last_participant:
            return 5, None
        if block[0] == 71 and u32(block, 4) <= self.last_resource:
            return 5, None
        if block[0] == 71 and owners_wrong(block, self.participants):
            return 6, None
        return None

    def in_order(self, kind):
        if self.previous == 0:
            return kind == 68
        if kind == 80:
            return self.previous in (68, 80)
        if kind == 82:
            return self.previous == 71
        return kind == 71

    def note(self, block):
        self.previous = block[0]
        if block[0] == 80:
            self.participants += 1
            self.last_participant = u32(block, 4)
        if block[0] == 71:
            self.resources += 1
            self.last_resource = u32(block, 4)

    def accepted(self, data):
        values = [value for block in blocks_of(data) for value in layout_values(block)]
        head = layout_values(data[:512])
        return " ".join(map(str, ["accepted", *head, digest(values), "same"]))


def plain_block_answer(block):
    """A block by itself, judged with nothing before it."""
    if weighted_sum(block) != u32(block, 508):
        return "refused 2 block 0"
    if block[0] not in WRONG_AT:
        return "refused 3 block 0"
    for at in range(1, 508):
        if WRONG_AT[block[0]](block, at):
            return f"refused 4 block 0 {at}"
    if block[0] == 71 and owners_wrong(block, 48):
        return "refused 6 block 0"
    return f"shows {chr(block[0])} {digest(layout_values(block))}"


def plain_record_answer(record, buffer_bytes):
    """A record written first, whatever it holds, and then looked at as a block."""
    block = layout_block(record.kind, record.values)
    answer = plain_block_answer(block)
    if answer.startswith("refused 4"):
        return answer.replace("block 0", "writing")
    if answer.startswith("refused 6"):
        return "refused 6 writing"
    return "refused 18 writing" if buffer_bytes < 512 else f"written {digest(block)}"


def told_fault(fault, index):
    number, at = fault
    return f"refused {number} block {index}" + ("" if at is None else f" {at}")


def weighted_sum(block):
    """The check as a sum of sums: byte i is counted from its place down to the first."""
    total, tail = 0, 0
    for at in range(507, -1, -1):
        tail += block[at]
        total += tail
    return total


# --- Fixed layouts of whole blocks, the values in their order ------------------------

LAYOUTS = {
    "D": "<B3xIHBB496xI",
    "P": "<B3xI24III396xI",
    "G": "<BBBBIII24iBB2xI" + "HI" * 8 + "24I24i24B124xI",
    "R": "<B3xII" + "IIi" * 24 + "24B24B160xI",
}


def layout_values(block):
    """All values between the kind and the check."""
    return struct.unpack(LAYOUTS[chr(block[0])], block)[1:-1]


def layout_block(kind, values):
    """The block with these values; its kind and check are put in here."""
    unchecked = struct.pack(LAYOUTS[kind], ord(kind), *values, 0)
    return struct.pack(LAYOUTS[kind], ord(kind), *values, weighted_sum(unchecked))


# --- The division word by word, and ways to get it wrong ------------------------------


def worded_division(cents, weights, rank=None, product_bits=128, sum_bits=64):
    """Whole parts, then a cent each by rank; unless told otherwise as the rule says."""
    rank = rank or (lambda remainder, place: (-remainder, place))
    total = sum(weights) % 2**sum_bits or 1
    products = [cents * weight % 2**product_bits for weight in weights]
    shares = [product // total for product in products]
    places = sorted(range(len(weights)), key=lambda place: rank(products[place] % total, place))
    for place in places[:max(cents - sum(shares), 0)]:
        shares[place] += 1
    return tuple(shares)


def ranked_by(rank):
    return lambda cents, weights: worded_division(cents, weights, rank)


def rounded_each(cents, weights):
    total = sum(weights)
    return tuple((2 * cents * weight + total) // (2 * total) for weight in weights)


def rest_to_the_last(cents, weights):
    *others, _ = (cents * weight // sum(weights) for weight in weights)
    return (*others, cents - sum(others))


def in_floating_point(cents, weights):
    exact = [float(cents) * weight / sum(weights) for weight in weights]
    return worded_division(cents, weights, lambda _, place: (-(exact[place] % 1), place))


WRONG_DIVISIONS = {
    "ties to the later record": ranked_by(lambda remainder, place: (-remainder, -place)),
    "smallest remainders first": ranked_by(lambda remainder, place: (remainder, place)),
    "the rest to the first ones": ranked_by(lambda remainder, place: place),
    "the rest to the last one": rest_to_the_last,
    "each share rounded": rounded_each,
    "weights ignored": lambda cents, weights: worded_division(cents, [1] * len(weights)),
    "floating point": in_floating_point,
    "products of 63 bits": lambda cents, weights: worded_division(cents, weights, product_bits=63),
    "sums of 32 bits": lambda cents, weights: worded_division(cents, weights, sum_bits=32),
}


# --- Tests ---------------------------------------------------------------------------


class SmallDay(unittest.TestCase):
    def test_check_of_its_first_block_is_750(self):
        by_hand = 1 * ord("D") + 5 * 0x20 + 6 * 0x4E + 9 * 1 + 11 * 3 + 12 * 1
        self.assertEqual(750, by_hand)
        self.assertEqual((750).to_bytes(4, "little"), small_day()[508:512])

    def test_its_first_block_byte_by_byte(self):
        day = b"D\0\0\0" + b"\x20\x4e\0\0" + b"\x01\0" + b"\x03\x01"
        self.assertEqual(day + bytes(496) + b"\xee\x02\0\0", small_day()[:512])

    def test_it_is_accepted_with_five_records(self):
        verdict = judge(small_day())
        self.assertEqual("DPPPG", "".join(record.kind for record in verdict.records))


class ReadingAndWriting(unittest.TestCase):
    def test_layouts_fill_a_block(self):
        for layout in LAYOUTS.values():
            self.assertEqual(512, struct.calcsize(layout))

    def test_accepted_blocks_are_written_back_as_they_were(self):
        for block in accepted_blocks():
            self.assertEqual(block, encode(decode(block)))

    def test_records_read_and_written_agree_with_the_layouts(self):
        for block in accepted_blocks():
            record = decode(block)
            self.assertEqual(layout_values(block), record.values)
            self.assertEqual(block, layout_block(record.kind, record.values))

    def test_written_records_read_back_equal(self):
        for case in RECORDS:
            if writing_refusal(case.record, case.buffer_bytes) is None:
                self.assertEqual((case.record,), judge_block(encode(case.record)).records)


class PlainJudgeAgrees(unittest.TestCase):
    def test_on_files(self):
        for case in FILES:
            self.assertEqual(PlainJudge().file(case.data), case.answer(), BOOK.cases[case])

    def test_on_blocks(self):
        for case in BLOCKS:
            self.assertEqual(plain_block_answer(case.data), case.answer(), BOOK.cases[case])

    def test_on_records(self):
        for case in RECORDS:
            plain = plain_record_answer(case.record, case.buffer_bytes)
            self.assertEqual(plain, case.answer(), BOOK.cases[case])


class Divisions(unittest.TestCase):
    def test_worked_figures(self):
        self.assertEqual((34, 33, 33), divide(100, (1, 1, 1)))
        self.assertEqual((0, 1), divide(1, (1, 2)))
        self.assertEqual((1, 1, 1), divide(3, (2, 7, 6)))
        self.assertEqual((2, 0, 1), divide(3, (7, 2, 6)))

    def test_without_cents_or_weights(self):
        self.assertEqual((), divide(0, ()))
        self.assertEqual((0, 0), divide(0, (0, 0)))
        self.assertIsNone(divide(1, ()))
        self.assertIsNone(divide(1, (0, 0)))

    def test_the_rule_word_by_word_agrees(self):
        for case, shares in DIVIDED.items():
            worded = worded_division(case.cents, case.weights)
            self.assertEqual(worded, shares, DIVISION_BOOK.cases[case])

    def test_trying_and_choosing_agree(self):
        for case in DIVIDED:
            if ways_to_try(case.cents, case.weights) <= WAYS_MOST:
                tried = by_trying(case.cents, case.weights)
                self.assertEqual(tried, by_choosing(case.cents, case.weights))

    def test_no_division_whatever_is_closer(self):
        tiny = [
            case for case in DIVIDED if divisions_there_are(case.cents, len(case.weights)) <= 500
        ]
        self.assertGreater(len(tiny), 300)
        for case in tiny:
            self.assertEqual(SHARES[case], closest_of_all(case.cents, case.weights))

    def test_shares_add_up_and_are_less_than_a_cent_off(self):
        for case, shares in DIVIDED.items():
            self.assertEqual(case.cents, sum(shares))
            total = sum(case.weights)
            for share, weight in zip(shares, case.weights, strict=True):
                self.assertLess(abs(total * share - case.cents * weight), total)

    def test_a_heavier_record_never_gets_less_and_one_without_weight_nothing(self):
        for case, shares in DIVIDED.items():
            pairs = sorted(zip(case.weights, shares, strict=True))
            for (light, less), (heavy, more) in zip(pairs, pairs[1:]):
                self.assertTrue(light == heavy or less <= more)
            self.assertFalse(any(share for weight, share in pairs if weight == 0))


class CasesAreKept(unittest.TestCase):
    def test_making_them_twice_gives_the_same_bytes(self):
        for book, again in ((BOOK, book_of_cases()), (DIVISION_BOOK, book_of_divisions())):
            self.assertEqual(book.packed(), again.packed())
            self.assertEqual(book.expected(), again.expected())

    def test_they_read_back_from_their_files(self):
        with tempfile.TemporaryDirectory() as directory:
            write_books(BOOK, DIVISION_BOOK, Path(directory), labels=False)
            packed = (Path(directory) / "cases.bin").read_bytes()
            packed_divisions = (Path(directory) / "divisions.bin").read_bytes()
            lines = (Path(directory) / "expected.txt").read_text().splitlines()
        cases = list(CaseReader(packed).cases())
        self.assertEqual(list(BOOK.cases), cases)
        divisions = list(CaseReader(packed_divisions).divisions())
        self.assertEqual(list(DIVISION_BOOK.cases), divisions)
        answers = [f"{n} {case.answer()}" for n, case in enumerate(cases)]
        self.assertEqual(answers + [division_line(n, c) for n, c in enumerate(divisions)], lines)

    def test_bytes_of_a_division(self):
        packed = b"\x64\0\0\0\0\0\0\0" + b"\x02\0" + b"\x01\0\0\0" + b"\0\xe1\xf5\x05"
        self.assertEqual(packed, DivisionCase(100, (1, 100_000_000)).packed())

    def test_there_are_enough_and_they_stay_small(self):
        self.assertGreaterEqual(len(FILES), 700)
        self.assertGreaterEqual(len(BLOCKS), 60)
        self.assertGreaterEqual(len(RECORDS), 120)
        self.assertLess(len(BOOK.packed()), 2_500_000)
        self.assertGreaterEqual(len(SHARES), 400)
        self.assertLess(len(DIVISION_BOOK.packed()), 500_000)

    def test_records_hold_only_what_a_caller_can_form(self):
        for case in RECORDS:
            for field, value in zip(FIELDS[case.record.kind], case.record.values, strict=True):
                self.assertTrue(formable(field, value), BOOK.cases[case])


class CasesTryEverything(unittest.TestCase):
    def test_every_field_is_told_as_faulty_that_can_be(self):
        told = bytes_told_in_files()
        for kind, fields in FIELDS.items():
            for field in fields:
                if any(not field.within(value) for value in limit_values(field)):
                    self.assertIn((kind, field.start), told)

    def test_both_ends_of_all_unnamed_bytes_are_told(self):
        told = bytes_told_in_files()
        for kind in FIELDS:
            for stretch in unnamed_ranges(kind):
                self.assertLessEqual({(kind, stretch[0]), (kind, stretch[-1])}, told)

    def test_only_fields_and_unnamed_bytes_are_told(self):
        for kind, at in bytes_told_in_files():
            starts = [f.start for f in FIELDS[kind] if not f.name.startswith(("place", "parts"))]
            self.assertIn(at, starts + UNNAMED[kind])

    def test_every_field_is_accepted_at_both_limits(self):
        seen = values_accepted()
        for kind, fields in FIELDS.items():
            for field in (f for f in fields if not of_owners(f)):
                for end in (field.least, field.most):
                    self.assertIn((kind, field.name, end), seen)

    def test_every_refusal_is_met_in_files_blocks_and_records(self):
        self.assertEqual({1, 2, 3, 4, 5, 6, 7}, numbers_met(FILES))
        self.assertEqual({2, 3, 4, 6}, numbers_met(BLOCKS))
        self.assertEqual({4, 6, 18}, numbers_met(RECORDS))

    def test_divisions_keep_to_their_limits_and_reach_them(self):
        self.assertEqual({0, CENTS_MOST}, ends(case.cents for case in SHARES))
        weights = [weight for case in SHARES for weight in case.weights]
        self.assertEqual({0, WEIGHT_MOST}, ends(weights))
        self.assertEqual({0, 200}, ends(len(case.weights) for case in SHARES))

    def test_48_records_are_left_with_every_number_of_cents(self):
        left = {cents_left(case) for case in DIVIDED if len(case.weights) == 48}
        self.assertEqual(set(range(48)), left)

    def test_usual_divisions_tell_wrong_ones_from_right_ones(self):
        usual = [case for case in DIVIDED if is_usual(case)]
        self.assertGreater(len(usual), 400)
        for label, wrong in WRONG_DIVISIONS.items():
            told = sum(wrong(case.cents, case.weights) != SHARES[case] for case in usual)
            self.assertGreater(told, 20, label)


def accepted_blocks():
    """Every block that is accepted in a file or by itself, once."""
    blocks = {case.data for case in BLOCKS if isinstance(judge_block(case.data), Accepted)}
    for case, verdict in zip(FILES, VERDICTS):
        if isinstance(verdict, Accepted):
            blocks.update(blocks_of(case.data))
    return sorted(blocks)


def bytes_told_in_files():
    """Pairs of a block's kind and the byte that was told of it."""
    told = set()
    for case, verdict in zip(FILES, VERDICTS):
        if not isinstance(verdict, Accepted) and verdict.number == 4:
            index, at = verdict.told
            told.add((chr(case.data[512 * index]), at))
    return told


def values_accepted():
    """Every kind, field and value that stands in an accepted file."""
    seen = set()
    for verdict in VERDICTS:
        for record in verdict.records if isinstance(verdict, Accepted) else ():
            pairs = zip(FIELDS[record.kind], record.values, strict=True)
            seen.update((record.kind, field.name, value) for field, value in pairs)
    return seen


def division_line(number, case):
    shares = SHARES[case]
    words = ["nothing"] if shares is None else shares
    return " ".join(map(str, ["division", number, *words]))


def ends(values):
    values = list(values)
    return {min(values), max(values)}


def cents_left(case):
    """What the whole parts leave over: all remainders together."""
    total = sum(case.weights)
    return sum(case.cents * weight % total for weight in case.weights) // total


def is_usual(case):
    """Whether the engine itself could come to divide this."""
    return case.cents <= CENTS_USUAL_MOST and len(case.weights) <= RECORDS_USUAL_MOST


def numbers_met(cases):
    """The numbers of the refusals that are expected of these cases."""
    answers = [case.answer().split() for case in cases]
    return {int(words[1]) for words in answers if words[0] == "refused"}


if __name__ == "__main__":
    unittest.main()
