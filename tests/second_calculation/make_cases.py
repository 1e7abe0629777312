"""Makes the cases and the answers that are expected for them.

    python3 make_cases.py DIRECTORY [--labels]

writes cases.bin, divisions.bin and expected.txt into the directory, the same bytes
every time. With --labels it also writes labels.txt, which says in a line what each case
is. The divisions' lines come after all others.
"""

import sys
from pathlib import Path

from block_cases import all_blocks
from case_book import BlockCase, CaseBook, DivisionCase, FileCase, RecordCase
from division_cases import all_divisions
from file_cases import all_files
from record_cases import all_records


def book_of_cases():
    book = CaseBook()
    for label, data in all_files():
        book.add(f"file: {label}", FileCase(data))
    for label, block in all_blocks():
        book.add(f"block: {label}", BlockCase(block))
    for label, record, buffer_bytes in all_records():
        book.add(f"record: {label}", RecordCase(record, buffer_bytes))
    return book


def book_of_divisions():
    book = CaseBook("division")
    for label, cents, weights in all_divisions():
        book.add(label, DivisionCase(cents, tuple(weights)))
    return book


def write_books(book, divisions, directory, labels):
    directory.mkdir(parents=True, exist_ok=True)
    (directory / "cases.bin").write_bytes(book.packed())
    (directory / "divisions.bin").write_bytes(divisions.packed())
    write_lines(directory / "expected.txt", book.expected() + divisions.expected())
    if labels:
        write_lines(directory / "labels.txt", book.labels() + divisions.labels())


def write_lines(path, lines):
    path.write_text(lines, newline="\n")


def main(arguments):
    labels = "--labels" in arguments
    directories = [argument for argument in arguments if argument != "--labels"]
    if len(directories) != 1:
        sys.exit(__doc__)
    book, divisions = book_of_cases(), book_of_divisions()
    write_books(book, divisions, Path(directories[0]), labels)
    print(f"{len(book.cases)} cases, {len(divisions.cases)} divisions")


if __name__ == "__main__":
    main(sys.argv[1:])
