"""The cases and their expected answers, as they are kept in files.

A case is a file, a block by itself, or a record offered for writing; divisions of
cents are kept in a file of their own. README.md describes the bytes of cases.bin and
divisions.bin and the lines of expected.txt.
"""

from dataclasses import dataclass

from day_file import (
    BLOCK_BYTES, FIELDS, Accepted, Record, encode, judge, judge_block, writing_refusal,
)
from division import divide

FILE, BLOCK, RECORD = 0, 1, 2
PATCH_HEAD_BYTES = 6        # offset and length: closing a shorter gap of zeros is cheaper
PATCH_BYTES_MOST = 0xFFFF


# --- Cases ---------------------------------------------------------------------------


@dataclass(frozen=True)
class FileCase:
    data: bytes

    def packed(self):
        return pack_data(FILE, self.data)

    def answer(self):
        verdict = judge(self.data)
        return day_line(verdict) if isinstance(verdict, Accepted) else refusal_line(verdict)


@dataclass(frozen=True)
class BlockCase:
    data: bytes

    def packed(self):
        return pack_data(BLOCK, self.data)

    def answer(self):
        verdict = judge_block(self.data)
        if not isinstance(verdict, Accepted):
            return refusal_line(verdict)
        return f"shows {verdict.records[0].kind} {digest(values_of(verdict.records))}"


@dataclass(frozen=True)
class RecordCase:
    record: Record
    buffer_bytes: int

    def packed(self):
        head = bytes([RECORD, ord(self.record.kind)]) + number(self.buffer_bytes, 2)
        return head + b"".join(number(value % 2**32, 4) for value in self.record.values)

    def answer(self):
        refusal = writing_refusal(self.record, self.buffer_bytes)
        return refusal_line(refusal) if refusal else f"written {digest(encode(self.record))}"


@dataclass(frozen=True)
class DivisionCase:
    cents: int
    weights: tuple

    def packed(self):
        head = number(self.cents, 8) + number(len(self.weights), 2)
        return head + b"".join(number(weight, 4) for weight in self.weights)

    def answer(self):
        shares = divide(self.cents, self.weights)
        return "nothing" if shares is None else " ".join(map(str, shares))


class CaseBook:
    """The cases in order, each kept once, with labels that say what they are.

    Each line about a case begins with `heading`, if there is one, and its number.
    """

    def __init__(self, heading=""):
        self.heading = heading
        self.cases = {}

    def add(self, label, case):
        self.cases.setdefault(case, label)

    def packed(self):
        return b"".join(case.packed() for case in self.cases)

    def expected(self):
        return self.lines(case.answer() for case in self.cases)

    def labels(self):
        return self.lines(self.cases.values())

    def lines(self, texts):
        numbered = (f"{self.heading} {rank} {text}" for rank, text in enumerate(texts))
        return "".join(f"{line.strip()}\n" for line in numbered)


# --- Answers ---------------------------------------------------------------------------


def digest(values):
    """All values in order, folded into 32 bits; negative ones by their bits."""
    folded = 0
    for value in values:
        folded = (folded * 31 + value) % 2**32
    return folded


def values_of(records):
    return [value for record in records for value in record.values]


def day_line(verdict):
    head = verdict.records[0]
    told = [head[name] for name in ("date", "version", "participants", "resources")]
    words = ["accepted", *told, digest(values_of(verdict.records)), "same"]
    return " ".join(str(word) for word in words)


def refusal_line(refusal):
    words = ["refused", refusal.number, refusal.layer, *refusal.told]
    return " ".join(str(word) for word in words)


# --- Bytes of cases.bin and divisions.bin -----------------------------------------------


def number(value, width):
    return value.to_bytes(width, "little")


def pack_data(case_kind, data):
    patches = patches_of(data)
    head = bytes([case_kind]) + number(len(data), 4) + number(len(patches), 2)
    return head + b"".join(number(at, 4) + number(len(run), 2) + run for at, run in patches)


def patches_of(data):
    """The runs of the data that are not 0, short gaps of zeros included."""
    patches = []
    for start, end in nonzero_runs(data):
        for at in range(start, end, PATCH_BYTES_MOST):
            patches.append((at, data[at:min(end, at + PATCH_BYTES_MOST)]))
    return patches


def nonzero_runs(data):
    runs = []
    for at in (at for at, byte in enumerate(data) if byte):
        if runs and at - runs[-1][1] < PATCH_HEAD_BYTES:
            runs[-1][1] = at + 1
        else:
            runs.append([at, at + 1])
    return runs


class CaseReader:
    """Takes cases.bin or divisions.bin apart again."""

    def __init__(self, packed):
        self.packed = packed
        self.at = 0

    def cases(self):
        while self.at < len(self.packed):
            yield self.case()

    def divisions(self):
        while self.at < len(self.packed):
            yield self.division_case()

    def case(self):
        case_kind = self.number(1)
        if case_kind == RECORD:
            return self.record_case()
        data = self.data()
        if case_kind == BLOCK and len(data) != BLOCK_BYTES:
            raise ValueError("a block by itself has 512 bytes")
        return FileCase(data) if case_kind == FILE else BlockCase(data)

    def data(self):
        data = bytearray(self.number(4))
        for _ in range(self.number(2)):
            at, length = self.number(4), self.number(2)
            data[at:at + length] = self.take(length)
        return bytes(data)

    def record_case(self):
        kind = chr(self.number(1))
        buffer_bytes = self.number(2)
        values = tuple(self.value(field) for field in FIELDS[kind])
        return RecordCase(Record(kind, values), buffer_bytes)

    def division_case(self):
        cents, records = self.number(8), self.number(2)
        return DivisionCase(cents, tuple(self.number(4) for _ in range(records)))

    def value(self, field):
        return int.from_bytes(self.take(4), "little", signed=field.signed)

    def number(self, width):
        return int.from_bytes(self.take(width), "little")

    def take(self, length):
        taken = self.packed[self.at:self.at + length]
        if len(taken) != length:
            raise ValueError("the cases end in the middle of one")
        self.at += length
        return taken
