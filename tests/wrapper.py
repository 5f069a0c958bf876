#!/usr/bin/env python3
"""wrapper.py: tries examples/python/siphonbard.py over the shared object that SIPHONBARD_SO names: listings of none to
many records, a place, a message that is written back, a number that its list lacks, texts, big-endian messages, groups
that count what is in their entries, a book whose octets are gone, the largest book, the longest template, and refusals
with their words.

Prints what is wrong. The last line is 'wrapper: N passed, 0 failed'."""
import struct
import sys
from pathlib import Path

ROOT = Path(__file__).resolve().parent.parent
sys.path[:0] = [str(ROOT / "examples"), str(ROOT / "examples" / "python")]

from schema_book import block, book, data, enumeration, field, group
from siphonbard import FIRST, Book, Element, Kind, Refused, text

EMPTY = book(7, 0, {1: block(0)})
ENTRIES = book(7, 0, {1: block(0, groups=[group(1, block(2, [field(2, "uint16", offset=0)]))])})
LISTED = book(7, 0, {1: block(1, [field(1, "uint8", offset=0, list=4)])}, {4: enumeration([1])})
NO_NAMES = book(7, 0, {1: block(0)}, {4: enumeration([])})
TEXTS = book(7, 0, {1: block(10, [
    field(55, "char", offset=0, length=6),
    field(311, "char", offset=6, length=4, presence="optional"),
])})
NUMBERS = {1: block(10, [
    field(44, "int32", offset=0),
    field(55, "char", offset=4, length=4),
    field(64, "uint16", offset=8, presence="optional"),
], [group(1, block(8, [field(2, "int64", offset=0)]))], [data(58)])}


def of_records(count):
    """A book, its message with so many records, and these: a group and its entries, or none."""
    if count == 0:
        return Book(EMPTY), struct.pack("<6H", 0, 1, 7, 0, 0, 0), []
    entries = range(count - 1)
    header = struct.pack("<8H", 0, 1, 7, 0, 1, 0, 2, len(entries))
    records = [(Kind.GROUP, len(entries), 0)] + [(Kind.NUMBER, entry, 0) for entry in entries]
    return Book(ENTRIES), header + struct.pack("<%dH" % len(entries), *entries), records


def lists(count):
    by, message, records = of_records(count)
    return by.list(message), records


def places():
    by, message, records = of_records(9)
    return by.place(message, [(0, 7)], Element.FIELD, 0), records[8]


def writes_back():
    by, message, records = of_records(9)
    return by.write(1, records, message), message


def of_listed(code):
    """The message by LISTED whose field has the code."""
    return struct.pack("<6HB", 1, 1, 7, 0, 0, 0, code)


def tells_unlisted():
    by = Book(LISTED)
    return [by.list(of_listed(code)) for code in (1, 2)], [[(Kind.NUMBER, 1, 0)], [(Kind.UNLISTED, 2, 0)]]


def writes_listed():
    return Book(LISTED).write(1, [(Kind.NUMBER, 1, 0)], b""), of_listed(1)


def refuses_unlisted():
    """The number of the refusal: as what it was read as, and as a number."""
    write = Book(LISTED).write
    kinds = Kind.UNLISTED, Kind.NUMBER
    return [refuses(write, 1, [(kind, 2, 0)], b"")[0] for kind in kinds], [51, 52]


def of_texts(block):
    """The message by TEXTS whose root block is this."""
    return struct.pack("<6H", 10, 1, 7, 0, 0, 0) + block


def reads_texts():
    """Records, and what they are as text: a full one, a shorter one, an empty one and null."""
    by, came = Book(TEXTS), []
    for message in map(of_texts, [b"MEAL\0?SOYA", b"SOYBED\0\0\0\0", b"\0\0\0\0\0\0M\0\0\0"]):
        came.append([(record, text(record, message)) for record in by.list(message)])
    return came, [
        [((Kind.OCTETS, 12, 4), "MEAL"), ((Kind.OCTETS, 18, 4), "SOYA")],
        [((Kind.OCTETS, 12, 6), "SOYBED"), ((Kind.NULL, 0, 0), None)],
        [((Kind.OCTETS, 12, 0), ""), ((Kind.OCTETS, 18, 1), "M")],
    ]


def tells_what_is_no_text():
    """A number, octets that are not ASCII, and octets that the message lacks."""
    records = [(Kind.NUMBER, 0, 0), (Kind.OCTETS, 1, 1), (Kind.OCTETS, 0, 3)]
    return [text(record, b"M\x80") for record in records], [None] * 3


def writes_texts():
    """Filled with NUL, empty, and null."""
    write = Book(TEXTS).write
    records = [(Kind.OCTETS, 0, 4), (Kind.OCTETS, 4, 1)], [(Kind.OCTETS, 0, 0), (Kind.NULL, 0, 0)]
    return [write(1, two, b"MEALS") for two in records], [of_texts(b"MEAL\0\0S\0\0\0"), of_texts(bytes(10))]


def refuses_texts():
    """Number and place of the refusal: null for the required one; then one that is too long, has a NUL, is empty."""
    good, write = (Kind.OCTETS, 0, 4), Book(TEXTS).write
    wrong = [((Kind.NULL, 0, 0), good), *((good, (Kind.OCTETS, *span)) for span in [(0, 5), (4, 2), (0, 0)])]
    return [refuses(write, 1, two, b"MEALS\0")[:2] for two in wrong], [(52, 0), (53, 1), (53, 1), (53, 1)]


def of_numbers(first):
    """A message by NUMBERS, its numbers in the order that struct is told: -5, "MEAL", null, an entry of 1000, "ab"."""
    root = struct.pack(first + "6Hi4sH", 10, 1, 7, 0, 1, 1, -5, b"MEAL", 65535)
    return root + struct.pack(first + "2HqH", 8, 1, 1000, 2) + b"ab"


OF_NUMBERS = [
    (Kind.NUMBER, 2**64 - 5, 0), (Kind.OCTETS, 16, 4), (Kind.NULL, 0, 0), (Kind.GROUP, 1, 0), (Kind.NUMBER, 1000, 0),
    (Kind.OCTETS, 36, 2),
]


def reads_either_order():
    """Each by its own book: the records are the same, starts and all."""
    little, big = (Book(book(7, 0, NUMBERS, byte_order=order)) for order in ("little", "big"))
    return [little.list(of_numbers("<")), big.list(of_numbers(">"))], [OF_NUMBERS] * 2


def places_in_big_endian():
    by, message = Book(book(7, 0, NUMBERS, byte_order="big")), of_numbers(">")
    return by.place(message, [(0, 0)], Element.FIELD, 0), (Kind.NUMBER, 1000, 0)


def writes_either_order():
    """One listing by two books."""
    books = (Book(book(7, 0, NUMBERS, byte_order=order)) for order in ("little", "big"))
    return [by.write(1, OF_NUMBERS, of_numbers("<")) for by in books], [of_numbers("<"), of_numbers(">")]


def refuses_the_other_order():
    """A message by the book of the other order, and a book of no order."""
    little, big = (Book(book(7, 0, NUMBERS, byte_order=order)) for order in ("little", "big"))
    refused = [refuses(little.list, of_numbers(">")), refuses(big.list, of_numbers("<"))]
    refused.append(refuses(Book, book(7, 0, NUMBERS, byte_order=2)))
    return [said[:2] for said in refused], [(12, 4), (12, 4), (2, 0)]


OLDER_GROUP = [group(1, block(1, [field(2, "uint8", offset=0)]))]
NEWER_GROUP = [group(1, block(1, [field(2, "uint8", offset=0)], [
    group(3, block(1, [field(4, "uint8", offset=0, since=1)]), since=1),
], [data(5, since=1)]))]


def of_groups(version, groups, dimension=4):
    return Book(book(7, version, {1: block(0, groups=groups)}, dimension=dimension))


def of_entries(version, *rest):
    """A message of one group of two entries; the rest is the dimension and what follows it."""
    return struct.pack("<6H", 0, 1, 7, version, 1, 0) + b"".join(rest)


FIRST_ENTRY = b"\x07" + struct.pack("<4H", 1, 1, 0, 0) + b"\x08" + b"\x02\0ab"
SECOND_ENTRY = b"\x09" + struct.pack("<4H", 1, 0, 0, 0) + b"\0\0"
WITH_MORE = of_entries(1, struct.pack("<4H", 1, 2, 1, 1), FIRST_ENTRY, SECOND_ENTRY)
OF_OLDER = [(Kind.GROUP, 2, 0), (Kind.NUMBER, 7, 0), (Kind.NUMBER, 9, 0)]
OF_NEWER = [
    (Kind.GROUP, 2, 0), (Kind.NUMBER, 7, 0), (Kind.GROUP, 1, 0), (Kind.NUMBER, 8, 0), (Kind.OCTETS, 32, 2),
    (Kind.NUMBER, 9, 0), (Kind.GROUP, 0, 0), (Kind.OCTETS, 45, 0),
]


def reads_more_inside():
    """A group and a data inside a group, by the book that has them and by one that has not."""
    books = of_groups(0, OLDER_GROUP), of_groups(1, NEWER_GROUP)
    return [by.list(WITH_MORE) for by in books], [OF_OLDER, OF_NEWER]


def writes_counts():
    by = of_groups(1, NEWER_GROUP)
    return by.write(1, OF_NEWER, WITH_MORE), WITH_MORE


def refuses_counts():
    """A count of the older version's that is not 0, a group below depth four, and a book of no such dimensions."""
    older = of_groups(0, OLDER_GROUP)
    deep = struct.pack("<4H", 0, 1, 1, 0) * 3 + bytes(8)
    refused = [
        refuses(older.list, of_entries(0, struct.pack("<4H", 1, 0, 0, 1))),
        refuses(older.list, of_entries(1, struct.pack("<4H", 1, 1, 1, 0), b"\x07", deep)),
        refuses(of_groups, 0, OLDER_GROUP, 3),
    ]
    return [said[:2] for said in refused], [(21, 12), (22, 45), (2, 0)]


def outlives_its_octets():
    """The octets are altered once the book is there."""
    octets, (_, message, records) = bytearray(ENTRIES), of_records(9)
    by = Book(octets)
    octets[:] = bytes(len(octets))
    return by.list(message), records


def prepares_the_largest():
    """8,192 octets: eight templates of 64 fields, one of 61 and one of none, and a list of four numbers."""
    templates = {id: block(64, octet_fields(64)) for id in range(8)}
    octets = book(7, 0, {**templates, 8: block(61, octet_fields(61)), 9: block(0)}, {4: enumeration(range(4))})
    message = struct.pack("<6H", 61, 8, 7, 0, 0, 0) + bytes(range(61))
    return (len(octets), Book(octets).list(message)), (8192, [(Kind.NUMBER, value, 0) for value in range(61)])


def writes_the_longest():
    """A group without entries and a data without octets behind a root block that leaves no more room; then an octet of
    data more, and a root block of an octet more."""
    octets = [book(7, 0, {1: block(length, groups=OLDER_GROUP, datas=[data(5)])}) for length in (65517, 65518)]
    by, records = Book(octets[0]), [(Kind.GROUP, 0, 0), (Kind.OCTETS, 0, 0)]
    message = by.write(1, records, b"")
    too_long = [refuses(by.write, 1, [records[0], (Kind.OCTETS, 0, 1)], b"M"), refuses(Book, octets[1])]
    came = len(message), by.list(message), [said[:2] for said in too_long]
    return came, (65535, [(Kind.GROUP, 0, 0), (Kind.OCTETS, 65535, 0)], [(55, 0), (7, 0)])


def octet_fields(count):
    return [field(1, "uint8", offset=offset) for offset in range(count)]


def refuses(call, *arguments):
    """Number, place and words of a refusal."""
    try:
        return call(*arguments)
    except Refused as refused:
        return refused.number, refused.place, str(refused)


def refuses_a_book():
    return refuses(Book, b"no book"), (1, 0, "refused 1: the book's octets are odd, under 8 or over 8,192")


def refuses_a_template():
    octets = book(7, 0, {1: block(0), 2: block(0, octet_fields(1))})
    words = "a block length, or a field's type, length, presence, offset or list, breaks its rule"
    return refuses(Book, octets), (5, 1, "refused 5 in template 1: " + words)


def refuses_an_unsendable_template():
    """The words before those of the rule, too."""
    number, place, words = refuses(Book, book(7, 0, {1: block(0), 2: block(65524)}))
    return (number, place, words.split(":")[0]), (7, 1, "refused 7 in template 1")


def refuses_a_list():
    """The words before those of the rule, too: the body is counted on behind the templates'."""
    number, place, words = refuses(Book, NO_NAMES)
    return (number, place, words.split(":")[0]), (4, 1, "refused 4 in body 1")


def refuses_a_message():
    by, message, _ = of_records(FIRST + 1)
    return refuses(by.list, message[:-1]), (16, 142, "refused 16 at octet 142: an element runs past the message's end")


def refuses_a_room():
    words = "refused 40 for 6 records: the room is below three numbers per record, or below a prepared book's numbers"
    return str(Refused(40, 6)), words


COUNTS = [0, 1, FIRST - 1, FIRST, FIRST + 1, 2 * FIRST, 5000]
TESTS = [(lists, count) for count in COUNTS] + [
    (places,), (writes_back,), (tells_unlisted,), (writes_listed,), (refuses_unlisted,), (reads_texts,),
    (tells_what_is_no_text,), (writes_texts,), (refuses_texts,), (reads_either_order,), (places_in_big_endian,),
    (writes_either_order,), (refuses_the_other_order,), (reads_more_inside,), (writes_counts,), (refuses_counts,),
    (outlives_its_octets,), (prepares_the_largest,), (writes_the_longest,),
    (refuses_a_book,), (refuses_a_template,), (refuses_an_unsendable_template,), (refuses_a_list,),
    (refuses_a_message,), (refuses_a_room,),
]


def main():
    failed = 0
    for test, *arguments in TESTS:
        came, expected = test(*arguments)
        if came != expected:
            failed += 1
            print("FAILED %s %s: came %.300r, expected %.300r" % (test.__name__, arguments, came, expected))
    print("wrapper: %d passed, %d failed" % (len(TESTS) - failed, failed))
    sys.exit(1 if failed else 0)


if __name__ == "__main__":
    main()
