#!/usr/bin/env python3
"""make.py: makes the books and messages of this folder from a description in words. `make.py FOLDER` makes them there.

For a book of your own, copy it and schema_book.py, and write your templates where the fill stands, and your lists of
codes where its side and its conditions stand."""
import os
import struct
import sys

from schema_book import block, book, data, enumeration, field, flags, group

# ---- The books: a fill; one with a quantity where there was padding, and a condition more; the same, big-endian; the
# same with counted dimensions, and one with the deliveries of each mill; one by which nothing can be sent ----

SCHEMA, FILL = 7, 1
BLOCK = 28  # octets of a fill's block, in all books
SIDES, CONDITIONS = 54, 277  # ids of lists

FIELDS = [
    field(37, "char", offset=0, length=16),  # the order: a text of up to 16 characters
    field(44, "int32", offset=16),  # the price: cents a tonne over the exchange's, or under it
    field(64, "uint8", offset=20, presence="optional"),  # the week of delivery; null while none is agreed
    field(54, "char", offset=21, list=SIDES),  # the side: a code
    field(277, "uint16", offset=22, list=CONDITIONS),  # the conditions: a flag for each
]
QUANTITY = field(32, "uint32", offset=24, since=1)  # the filled quantity, in tonnes

MILL = [
    field(79, "uint16", offset=0),  # a mill
    field(80, "uint8", offset=2),  # its share of the fill, in percent
]
MILLS = group(78, block(4, MILL))
DELIVERIES = group(81, block(4, [
    field(82, "uint8", offset=0, since=2),  # a week of delivery
    field(83, "uint16", offset=2, since=2),  # what comes in it, in tonnes
]), since=2)
NOTE = data(58)

# Codes of the side, as FIX has them, and bits of the conditions. Only the newer book lists the last bit.
BUY, SELL = b"1", b"2"
IN_PART, BY_WEIGHT_AT_MILL, PRICE_TO_BE_FIXED = 0, 1, 4

OLDER = book(SCHEMA, 0, {FILL: block(BLOCK, FIELDS, [MILLS], [NOTE])}, {
    SIDES: enumeration(BUY + SELL),
    CONDITIONS: flags([IN_PART, BY_WEIGHT_AT_MILL]),
})
NEWER_TEMPLATES = {FILL: block(BLOCK, FIELDS + [QUANTITY], [MILLS], [NOTE])}
NEWER_LISTS = {
    SIDES: enumeration(BUY + SELL),
    CONDITIONS: flags([IN_PART, BY_WEIGHT_AT_MILL, PRICE_TO_BE_FIXED]),
}
NEWER = book(SCHEMA, 1, NEWER_TEMPLATES, NEWER_LISTS)
BIG = book(SCHEMA, 1, NEWER_TEMPLATES, NEWER_LISTS, byte_order="big")

COUNTED = book(SCHEMA, 1, NEWER_TEMPLATES, NEWER_LISTS, dimension=4)
WITH_DELIVERIES = group(78, block(4, MILL, [DELIVERIES]))
DELIVERED_TEMPLATES = {FILL: block(BLOCK, FIELDS + [QUANTITY], [WITH_DELIVERIES], [NOTE])}
DELIVERED = book(SCHEMA, 2, DELIVERED_TEMPLATES, NEWER_LISTS, dimension=4)

# A block of 65,530 octets, and no room behind it for the mills and the note, which have at least 6.
LONG = book(SCHEMA, 1, {FILL: block(65530, FIELDS + [QUANTITY], [MILLS], [NOTE])}, NEWER_LISTS)

# ---- The messages: x is an octet of padding ----

LEAST_FIRST, MOST_FIRST = "<", ">"  # the byte orders as struct has them
NO_WEEK = 255  # null for a uint8
SELL_SHORT = b"5"  # a side that no book lists


def message(version, root, mills, note, first=LEAST_FIRST, counts=()):
    """The header, with one group and one data; the root block; the group; the data: its length and its octets. Of a
    mill there are its number, its share, and what follows its block."""
    header = struct.pack(first + "6H", BLOCK, FILL, SCHEMA, version, 1, 1)
    entries = [struct.pack(first + "HBx", mill, share) + b"".join(rest) for mill, share, *rest in mills]
    return header + root + entries_of(4, entries, first, counts) + struct.pack(first + "H", len(note)) + note


def entries_of(length, entries, first=LEAST_FIRST, counts=()):
    """A group: its block length, its number of entries and, if dimensions are counted, the numbers of groups and data
    in an entry; then the entries."""
    return struct.pack(first + "%dH" % (2 + len(counts)), length, len(entries), *counts) + b"".join(entries)


def root(order, price, week, side, conditions, quantity=0, first=LEAST_FIRST):
    """The root block. An order that is shorter than its field has NULs behind it. In a message of version 0 the last
    four octets are padding, and zeros."""
    return struct.pack(first + "16siBcHI", order, price, week, side, sum(1 << bit for bit in conditions), quantity)


OLDER_FILL = message(0, root(b"B7-10423", -125, NO_WEEK, BUY, []), [(12, 60), (31, 40)], b"May delivery")
NEWER_FILL = message(1, root(b"C2-00917", 340, 23, BUY, [IN_PART], 500), [(12, 100)], b"300 t to come")

BIG_ROOT = root(b"V9-55010", -45, NO_WEEK, SELL, [BY_WEIGHT_AT_MILL], 1200, MOST_FIRST)
BIG_FILL = message(1, BIG_ROOT, [(7, 75), (300, 25)], b"rail", MOST_FIRST)

NOTHING_INSIDE, DELIVERIES_INSIDE = (0, 0), (1, 0)  # counts of groups and data in each entry


def deliveries(*weeks):
    """A group: week and tonnes of each."""
    return entries_of(4, [struct.pack("<BxH", week, tonnes) for week, tonnes in weeks], counts=NOTHING_INSIDE)


COUNTED_ROOT = root(b"D4-20031", 15, 26, BUY, [BY_WEIGHT_AT_MILL], 900)
COUNTED_FILL = message(1, COUNTED_ROOT, [(12, 60), (31, 40)], b"by barge", counts=NOTHING_INSIDE)
BY_WEEK = [(12, 60, deliveries((26, 300), (27, 240))), (31, 40, deliveries((27, 360)))]
DELIVERED_FILL = message(2, COUNTED_ROOT, BY_WEEK, b"by barge", counts=DELIVERIES_INSIDE)

ALL_MILLS = [(mill, 2 + mill % 2) for mill in range(1, 41)]
LONG_ORDER = b"C2-00918-40MILLS"  # as long as an order may be: no NUL behind it
FORTY_MILLS = message(1, root(LONG_ORDER, 335, 24, BUY, [BY_WEIGHT_AT_MILL], 2000), ALL_MILLS, b"all mills")

TWO_CONDITIONS = [IN_PART, PRICE_TO_BE_FIXED]
UNLISTED_FILL = message(1, root(b"C2-00919", 338, 25, SELL_SHORT, TWO_CONDITIONS, 250), [(31, 100)], b"price on Friday")

FILES = {
    "books/older.book": OLDER,
    "books/newer.book": NEWER,
    "books/big.book": BIG,
    "books/counted.book": COUNTED,
    "books/delivered.book": DELIVERED,
    "books/long.book": LONG,
    "messages/older_fill.sbe": OLDER_FILL,
    "messages/newer_fill.sbe": NEWER_FILL,
    "messages/forty_mills.sbe": FORTY_MILLS,
    "messages/unlisted_fill.sbe": UNLISTED_FILL,
    "messages/big_fill.sbe": BIG_FILL,
    "messages/counted_fill.sbe": COUNTED_FILL,
    "messages/delivered_fill.sbe": DELIVERED_FILL,
    "messages/cut_fill.sbe": NEWER_FILL[:-1],  # its last octet was lost on the way
}


def main():
    folder = sys.argv[1] if len(sys.argv) > 1 else os.path.dirname(os.path.abspath(__file__))
    for name, octets in FILES.items():
        path = os.path.join(folder, name)
        os.makedirs(os.path.dirname(path), exist_ok=True)
        with open(path, "wb") as file:
            file.write(octets)


if __name__ == "__main__":
    main()
