#!/usr/bin/env python3
"""borders.py: the borders of the book's rules, each with a name and, where there are two, both sides.

Writes what the program check_books is run on (its file stdin) and what it must write (stdout). With --check it writes
nothing and compares the two files with what it would write; the last line is 'borders: N passed, 0 failed'. With
--names it prints the name beside each answer."""
import struct
import sys
from pathlib import Path

ROOT = Path(__file__).resolve().parent.parent
sys.path.insert(0, str(ROOT / "examples"))

import schema_book
from schema_book import block, octets

FOLDER = ROOT / "crates" / "check_books"
HEAD, ROW, FIELD = 7, 3, 7  # words of a book's head, of a row of its contents, of a field


def field(type="uint8", length=1, offset=0, presence="required", since=0, list=None):
    return schema_book.field(1, type, offset, length, presence, since, list)


def fields(n):
    return [field(offset=i) for i in range(n)]


def data(since=0):
    return schema_book.data(2, since)


def group(fields=(field(),), groups=(), datas=(), since=0, length=8):
    return schema_book.group(3, block(length, fields, groups, datas), since)


def values(*numbers):
    """A list: an enumeration, its numbers as they are given."""
    return [0, *numbers]


def bits(*numbers):
    """A list: a set, its numbers as they are given."""
    return [1, *numbers]


def book(*bodies, lists=(), schema=7, version=0, byte_order=0, dimension=2, ids=None, list_ids=None, shift=0, more=0):
    """A book of these bodies and lists, their ids from 1 and from 4 on. `shift` is added to the last row's first word,
    `more` to the number of words."""
    templates = [*zip(ids or range(1, len(bodies) + 1), bodies)]
    names = [*zip(list_ids or range(4, len(lists) + 4), lists)]
    words = schema_book.words(schema, version, templates, names, byte_order, dimension)
    words[HEAD + ROW * (len(bodies) + len(lists)) - 2] += shift
    words[3] += more
    return octets(words)


def deep(depth):
    groups = ()
    for _ in range(depth):
        groups = (group(groups=groups),)
    return block(0, (), groups)


def sized(n):
    """A good book of n octets: bodies of 64 fields, and a last one of fewer with some data."""
    words, bodies = n // 2 - HEAD, []
    while words > ROW + len(FULL):
        bodies.append(FULL)
        words -= ROW + len(FULL)
    left = words - ROW - len(EMPTY)
    count = left // FIELD
    count -= (count + left) % 2
    return book(*bodies, block(64, fields(count), (), [data()] * ((left - FIELD * count) // 2)))


def named(names, type="uint8", length=1):
    """A book of one field, and the list that it names."""
    return book(block(8, [field(type, length, list=4)]), lists=[names])


def naming(id):
    """A book of lists 4 and 9, and a field that names this one."""
    return book(block(8, [field(list=id)]), lists=[values(1), bits(1)], list_ids=[4, 9])


def young(since, **more):
    """A group of this since."""
    return group([field(since=since)], since=since, **more)


def inside(groups=(), datas=(), dimension=2):
    """A book of version 2 with a group since 1, and in it these groups and data."""
    return book(block(8, (), [young(1, groups=groups, datas=datas)]), version=2, dimension=dimension)


def long(more, groups=0, datas=0, dimension=2, group=group()):
    """A book of so many root groups and data, whose shortest message is so much longer than one may be."""
    length = LONGEST + more - 2 * dimension * groups - 2 * datas
    return book(block(length, (), [group] * groups, [data()] * datas), dimension=dimension)


def of_lists(*lists, **more):
    """A book of these lists, which nothing uses."""
    return book(ONE, lists=lists, **more)


HEADER = 12  # octets
LONGEST = 65535 - HEADER  # octets of the longest root block

EMPTY = block(0)
ONE = block(8, [field()])
FULL = block(64, fields(64))
FIVE = block(8, [field(type=9)])
SIX = block(8, [field(since=1)])
SEVEN = block(LONGEST + 1)
WIDE = group(groups=[group()] * 16, datas=[data()] * 16)
MISSING = block(8, [field(list=0)])

BORDERS = [
    ("6 octets", octets([7, 0, 1]), "refused 1 0"),
    ("8 octets, no template", octets([7, 0, 0, 4]), "refused 2 0"),
    ("8 octets, the head without its last three words", octets([7, 0, 1, 4]), "refused 2 0"),
    ("10 octets, the head without its last two words", octets([7, 0, 1, 5, 0]), "refused 2 0"),
    ("12 octets, the head without its last word", octets([7, 0, 1, 6, 0, 0]), "refused 2 0"),
    ("14 octets, the head and no contents", octets([7, 0, 1, 7, 0, 0, 2]), "refused 2 0"),
    ("odd octets", book(ONE) + b"\0", "refused 1 0"),
    ("8,192 octets", sized(8192), "accepted"),
    ("8,194 octets", sized(8194), "refused 1 0"),
    ("word count one less", book(ONE, more=-1), "refused 2 0"),
    ("schema id 65534", book(ONE, schema=65534), "accepted"),
    ("schema id 65535", book(ONE, schema=65535), "refused 2 0"),
    ("version 65534", book(ONE, version=65534), "accepted"),
    ("version 65535", book(ONE, version=65535), "refused 2 0"),
    ("byte order 1", book(ONE, byte_order=1), "accepted"),
    ("byte order 2", book(ONE, byte_order=2), "refused 2 0"),
    ("byte order 256", book(ONE, byte_order=256), "refused 2 0"),
    ("byte order 65535", book(ONE, byte_order=65535), "refused 2 0"),
    ("byte order 2 hides a body one word on", book(ONE, byte_order=2, shift=1), "refused 2 0"),
    ("dimensions of one number", book(ONE, dimension=1), "refused 2 0"),
    ("dimensions of two numbers", book(ONE, dimension=2), "accepted"),
    ("dimensions of three numbers", book(ONE, dimension=3), "refused 2 0"),
    ("dimensions of four numbers", book(ONE, dimension=4), "accepted"),
    ("dimensions of five numbers", book(ONE, dimension=5), "refused 2 0"),
    ("dimensions of 1,024 numbers", book(ONE, dimension=1024), "refused 2 0"),
    ("dimensions of 65,535 numbers", book(ONE, dimension=65535), "refused 2 0"),
    ("dimensions of three numbers hide a body one word on", book(ONE, dimension=3, shift=1), "refused 2 0"),
    ("64 templates", book(*[EMPTY] * 64), "accepted"),
    ("65 templates", book(*[EMPTY] * 65), "refused 2 0"),
    ("contents that just fit", octets([7, 0, 2, 13, 0, 0, 2, 1, 13, 0, 2, 13, 0]), "refused 4 0"),
    ("contents that do not fit", octets([7, 0, 2, 12, 0, 0, 2, 1, 13, 0, 2, 13]), "refused 2 0"),
    ("contents of a list that just fit", octets([7, 0, 1, 13, 1, 0, 2, 1, 13, 0, 4, 13, 0]), "refused 4 0"),
    ("contents of a list that do not fit", octets([7, 0, 1, 12, 1, 0, 2, 1, 13, 0, 4, 13]), "refused 2 0"),
    ("65,535 lists", octets([7, 0, 1, 14, 65535, 0, 2, 1, 10, 4] + EMPTY), "refused 2 0"),
    ("template id 65534", book(ONE, ids=[65534]), "accepted"),
    ("template id 65535", book(ONE, ids=[65535]), "refused 3 0"),
    ("ids that rise", book(ONE, ONE, ids=[4, 5]), "accepted"),
    ("ids that stay", book(ONE, ONE, ids=[4, 4]), "refused 3 0"),
    ("a body one word on", book(ONE, shift=1), "refused 3 0"),
    ("a word after the last body", octets([7, 0, 1, 15, 0, 0, 2, 1, 10, 4] + EMPTY + [0]), "refused 3 0"),
    ("list id 65534", of_lists(bits(1), list_ids=[65534]), "accepted"),
    ("list id 65535", of_lists(bits(1), list_ids=[65535]), "refused 3 0"),
    ("list ids that rise", of_lists(bits(1), bits(1), list_ids=[4, 5]), "accepted"),
    ("list ids that stay", of_lists(bits(1), bits(1), list_ids=[4, 4]), "refused 3 0"),
    ("a list id that is a template's", of_lists(bits(1), list_ids=[1]), "accepted"),
    ("a list one word on", of_lists(bits(1), shift=1), "refused 3 0"),
    ("a list one word before", of_lists(bits(1), shift=-1), "refused 3 0"),
    ("a list", octets([7, 0, 1, 19, 1, 0, 2, 1, 13, 4, 4, 17, 2] + EMPTY + [0, 65]), "accepted"),
    ("a word after the last list",
     octets([7, 0, 1, 20, 1, 0, 2, 1, 13, 4, 4, 17, 2] + EMPTY + [0, 65, 66]), "refused 3 0"),
    ("a list before a template",
     octets([7, 0, 1, 19, 1, 0, 2, 1, 15, 4, 4, 13, 2] + [0, 65] + EMPTY), "refused 3 0"),
    ("a body of no words", book(EMPTY, []), "refused 4 1"),
    ("a body of three words", book([0, 0, 0]), "refused 4 0"),
    ("a body of four words", book(EMPTY), "accepted"),
    ("a word left over", book(ONE + [0]), "refused 4 0"),
    ("a field cut short", book(ONE[:-1]), "refused 4 0"),
    ("64 fields", book(FULL), "accepted"),
    ("65 fields", book(block(65, fields(65))), "refused 4 0"),
    ("16 groups", book(block(0, (), [group()] * 16)), "accepted"),
    ("17 groups", book(block(0, (), [group()] * 17)), "refused 4 0"),
    ("16 data", book(block(0, (), (), [data()] * 16)), "accepted"),
    ("17 data", book(block(0, (), (), [data()] * 17)), "refused 4 0"),
    ("depth 4", book(deep(4)), "accepted"),
    ("depth 5", book(deep(5)), "refused 4 0"),
    ("a group without fields", book(block(0, (), [group(fields=())])), "refused 4 0"),
    ("a list of no words", of_lists([]), "refused 4 1"),
    ("an enumeration of no numbers", of_lists(values()), "refused 4 1"),
    ("a set of no numbers", of_lists(bits()), "refused 4 1"),
    ("an enumeration of one number", of_lists(values(0)), "accepted"),
    ("a set of one number", of_lists(bits(0)), "accepted"),
    ("a list of kind 2", of_lists([2, 0]), "refused 4 1"),
    ("a list of 64 numbers", of_lists(values(*range(64))), "accepted"),
    ("a list of 65 numbers", of_lists(values(*range(65))), "refused 4 1"),
    ("a list whose numbers rise by one", of_lists(bits(6, 7)), "accepted"),
    ("a list whose numbers stay", of_lists(bits(7, 7)), "refused 4 1"),
    ("a list whose numbers fall", of_lists(bits(7, 6)), "refused 4 1"),
    ("block length 65534 is no 5", book(block(65534)), "refused 7 0"),
    ("block length 65535", book(block(65535)), "refused 5 0"),
    ("a group's block length 65534", book(block(0, (), [group(length=65534)])), "accepted"),
    ("a group's block length 65535", book(block(0, (), [group(length=65535)])), "refused 5 0"),
    ("type 8", book(block(8, [field(type=8)])), "accepted"),
    ("type 9", book(block(8, [field(type=9)])), "refused 5 0"),
    ("length 0", book(block(8, [field(length=0)])), "refused 5 0"),
    ("an array of 1,024 chars", book(block(1024, [field(type="char", length=1024)])), "accepted"),
    ("an array of 1,025 chars", book(block(1025, [field(type="char", length=1025)])), "refused 5 0"),
    ("an array of two uint8", book(block(8, [field(type="uint8", length=2)])), "accepted"),
    ("an array of two int8", book(block(8, [field(type="int8", length=2)])), "refused 5 0"),
    ("presence 1", book(block(8, [field(presence=1)])), "accepted"),
    ("presence 2", book(block(8, [field(presence=2)])), "refused 5 0"),
    ("an end at the block length", book(block(8, [field(type="uint64", offset=0)])), "accepted"),
    ("an end past the block length", book(block(8, [field(type="uint64", offset=1)])), "refused 5 0"),
    ("int64 at 25, next at 32", book(block(40, [field(type="int64", offset=25), field(offset=32)])), "refused 5 0"),
    ("int64 at 25, next at 33", book(block(40, [field(type="int64", offset=25), field(offset=33)])), "accepted"),
    ("an offset above the previous one and under its end",
     book(block(40, [field(type="int64"), field(offset=1)])), "refused 5 0"),
    ("an offset whose end passes 65,535", book(block(LONGEST, [field(type="uint64", offset=65534)])), "refused 5 0"),
    ("a field that names a list where there is none", book(MISSING), "refused 5 0"),
    ("a field that names list 4 of 4 and 9", naming(4), "accepted"),
    ("a field that names list 9 of 4 and 9", naming(9), "accepted"),
    ("a field that names list 0, of 4 and 9", naming(0), "refused 5 0"),
    ("a field that names list 1, of 4 and 9", naming(1), "refused 5 0"),
    ("a field that names list 8, of 4 and 9", naming(8), "refused 5 0"),
    ("a field that names list 10, of 4 and 9", naming(10), "refused 5 0"),
    ("an enumeration over char", named(values(65), "char"), "accepted"),
    ("an enumeration over int8", named(values(65), "int8"), "refused 5 0"),
    ("an enumeration over uint8", named(values(65), "uint8"), "accepted"),
    ("an enumeration over int16", named(values(65), "int16"), "refused 5 0"),
    ("an enumeration over uint16", named(values(65), "uint16"), "accepted"),
    ("an enumeration over uint32", named(values(65), "uint32"), "refused 5 0"),
    ("an enumeration over uint64", named(values(65), "uint64"), "refused 5 0"),
    ("an enumeration of values that its char cannot hold", named(values(0, 31, 127, 65535), "char"), "accepted"),
    ("an enumeration over an array", named(values(65), "char", 2), "refused 5 0"),
    ("a set over char", named(bits(0), "char"), "refused 5 0"),
    ("a set over int8", named(bits(0), "int8"), "refused 5 0"),
    ("a set over int64", named(bits(0), "int64"), "refused 5 0"),
    ("a set over an array", named(bits(0), "uint8", 2), "refused 5 0"),
    ("bit 7 of a uint8", named(bits(0, 7), "uint8"), "accepted"),
    ("bit 8 of a uint8", named(bits(0, 8), "uint8"), "refused 5 0"),
    ("bit 15 of a uint16", named(bits(0, 15), "uint16"), "accepted"),
    ("bit 16 of a uint16", named(bits(0, 16), "uint16"), "refused 5 0"),
    ("bit 31 of a uint32", named(bits(0, 31), "uint32"), "accepted"),
    ("bit 32 of a uint32", named(bits(0, 32), "uint32"), "refused 5 0"),
    ("bit 63 of a uint64", named(bits(*range(64)), "uint64"), "accepted"),
    ("bit 64 of a uint64", named(bits(0, 64), "uint64"), "refused 5 0"),
    ("bit 64 in a set that nothing uses", of_lists(bits(0, 64)), "accepted"),
    ("since at the version", book(block(8, [field(since=1)]), version=1), "accepted"),
    ("since above the version", book(block(8, [field(since=2)]), version=1), "refused 6 0"),
    ("since of fields that falls", book(block(8, [field(since=1), field(offset=1)]), version=1), "refused 6 0"),
    ("since of data that falls", book(block(8, (), (), [data(1), data(0)]), version=1), "refused 6 0"),
    ("since of groups that falls",
     book(block(8, (), [group([field(since=1)], since=1), group()]), version=1), "refused 6 0"),
    ("fields, groups and data each rise by themselves",
     book(block(8, [field(since=1)], [group()], [data()]), version=1), "accepted"),
    ("a group's first field younger than it", book(block(8, (), [group([field(since=1)])]), version=1), "refused 6 0"),
    ("a group's second field younger than it",
     book(block(8, (), [group([field(), field(offset=1, since=1)])]), version=1), "accepted"),
    ("data in a group younger than it", inside(datas=[data(2)]), "refused 6 0"),
    ("a group in a group younger than it", inside([young(2)]), "refused 6 0"),
    ("a group in a group older than it", inside([young(0)]), "refused 6 0"),
    ("data in a group younger than it, four numbers", inside(datas=[data(1), data(2)], dimension=4), "accepted"),
    ("data in a group above the version, four numbers", inside(datas=[data(3)], dimension=4), "refused 6 0"),
    ("data in a group older than it, four numbers", inside(datas=[data(0), data(1)], dimension=4), "refused 6 0"),
    ("data in a group that falls, four numbers", inside(datas=[data(2), data(1)], dimension=4), "refused 6 0"),
    ("a group in a group younger than it, four numbers", inside([young(1), young(2)], dimension=4), "accepted"),
    ("a group in a group above the version, four numbers", inside([young(3)], dimension=4), "refused 6 0"),
    ("a group in a group older than it, four numbers", inside([young(0)], dimension=4), "refused 6 0"),
    ("groups in a group that fall, four numbers", inside([young(2), young(1)], dimension=4), "refused 6 0"),
    ("a shortest message of 65,535 octets", long(0), "accepted"),
    ("a shortest message of 65,536 octets", long(1), "refused 7 0"),
    ("a shortest message of 65,535 octets with a group", long(0, 1), "accepted"),
    ("a shortest message of 65,536 octets with a group", long(1, 1), "refused 7 0"),
    ("a shortest message of 65,535 octets with 16 groups", long(0, 16), "accepted"),
    ("a shortest message of 65,536 octets with 16 groups", long(1, 16), "refused 7 0"),
    ("a shortest message of 65,535 octets with a data", long(0, 0, 1), "accepted"),
    ("a shortest message of 65,536 octets with a data", long(1, 0, 1), "refused 7 0"),
    ("a shortest message of 65,535 octets with 16 data", long(0, 0, 16), "accepted"),
    ("a shortest message of 65,536 octets with 16 data", long(1, 0, 16), "refused 7 0"),
    ("a shortest message of 65,535 octets with 16 groups and 16 data", long(0, 16, 16), "accepted"),
    ("a shortest message of 65,536 octets with 16 groups and 16 data", long(1, 16, 16), "refused 7 0"),
    ("a shortest message of 65,535 octets, four numbers", long(0, dimension=4), "accepted"),
    ("a shortest message of 65,536 octets, four numbers", long(1, dimension=4), "refused 7 0"),
    ("a shortest message of 65,535 octets with a group, four numbers", long(0, 1, dimension=4), "accepted"),
    ("a shortest message of 65,536 octets with a group, four numbers", long(1, 1, dimension=4), "refused 7 0"),
    ("a shortest message of 65,535 octets with 16 groups and 16 data, four numbers", long(0, 16, 16, 4), "accepted"),
    ("a shortest message of 65,536 octets with 16 groups and 16 data, four numbers", long(1, 16, 16, 4), "refused 7 0"),
    ("65,535 octets, and 16 groups and 16 data inside a group", long(0, 1, group=WIDE), "accepted"),
    ("65,536 octets, and 16 groups and 16 data inside a group", long(1, 1, group=WIDE), "refused 7 0"),
    ("the same of 65,535 octets, four numbers", long(0, 1, dimension=4, group=WIDE), "accepted"),
    ("the same of 65,536 octets, four numbers", long(1, 1, dimension=4, group=WIDE), "refused 7 0"),
    ("4 in the last template hides 5 in the first", book(FIVE, ONE, [0]), "refused 4 2"),
    ("4 in the last template hides 4 in a list", book(ONE, [0], lists=[values()]), "refused 4 1"),
    ("4 in the last list hides 5 in the first template", book(MISSING, ONE, lists=[bits(1), values()]), "refused 4 3"),
    ("4 at the first list that has it", book(ONE, lists=[bits(1), values(), values()]), "refused 4 2"),
    ("5 in the last template hides 6 in the first", book(SIX, ONE, FIVE), "refused 5 2"),
    ("5 of a missing list hides 6 in the first template", book(SIX, ONE, MISSING, lists=[bits(1)]), "refused 5 2"),
    ("5 at the first template that has it", book(ONE, FIVE, FIVE), "refused 5 1"),
    ("6 at the first template that has it", book(ONE, SIX, SIX), "refused 6 1"),
    ("6 in the last template hides 7 in the first", book(SEVEN, ONE, SIX), "refused 6 2"),
    ("6 in the first template hides 7 in the last", book(SIX, ONE, SEVEN), "refused 6 0"),
    ("5 in the last template hides 7 in the first", book(SEVEN, ONE, FIVE), "refused 5 2"),
    ("5 in the first template hides 7 in the last", book(FIVE, ONE, SEVEN), "refused 5 0"),
    ("4 in the last template hides 7 in the first", book(SEVEN, ONE, [0]), "refused 4 2"),
    ("4 in a list hides 7 in the first template", book(SEVEN, ONE, lists=[bits(1), values()]), "refused 4 3"),
    ("6 and 7 in one template", book(block(LONGEST + 1, [field(since=1)])), "refused 6 0"),
    ("7 in the first template", book(SEVEN, ONE), "refused 7 0"),
    ("7 in the last template", book(ONE, SEVEN), "refused 7 1"),
    ("7 at the first template that has it", book(ONE, SEVEN, SEVEN), "refused 7 1"),
    ("7 in the last of 64 templates", book(*[EMPTY] * 63, SEVEN), "refused 7 63"),
]


def made():
    """The files by their names."""
    books = b"".join(struct.pack("<H", len(book)) + book for _, book, _ in BORDERS)
    return {"stdin": books, "stdout": "".join(answer + "\n" for _, _, answer in BORDERS).encode()}


def check():
    """Whether the two files are there and are what they would be."""
    wrong = []
    for name, octets in made().items():
        path = FOLDER / name
        if not path.is_file() or path.read_bytes() != octets:
            wrong.append(name)
            print("FAILED: crates/check_books/%s is not what borders.py makes" % name)
    print("borders: %d passed, %d failed" % (len(made()) - len(wrong), len(wrong)))
    return not wrong


def main():
    if "--check" in sys.argv:
        sys.exit(0 if check() else 1)
    if "--names" in sys.argv:
        for name, _, answer in BORDERS:
            print("%-52s %s" % (name, answer))
        return
    for name, octets in made().items():
        (FOLDER / name).write_bytes(octets)


if __name__ == "__main__":
    main()
