#!/usr/bin/env python3
"""read_fill.py: reads a fill, asks for its filled quantity alone, and writes it back: read_fill.py BOOK MESSAGE.

Prints what the fill says, or the refusal. Exit status: 0 read, 1 refused, 2 without two files."""
import sys

from siphonbard import Book, Element, Kind, Refusal, Refused

# The template of a fill, and its elements in the order of a listing: fields, the group of mills, a note. In a mill's
# entry there may be a group of deliveries.
FILL = 1
FIELDS = ["order", "price", "delivery week", "side", "conditions", "filled quantity"]
MILL = ["  mill", "  share"]
DELIVERY = ["    week", "    tonnes"]

# The filled quantity is this field of the root block. The oldest book lacks it.
QUANTITY = 5

# The deliveries are this group of a mill. Only the newest book has them.
MILLS, DELIVERIES = 0, 0


def main():
    if len(sys.argv) != 3:
        stop("usage: read_fill.py BOOK MESSAGE")
    try:
        read_fill(octets_of(sys.argv[1]), octets_of(sys.argv[2]))
    except Refused as refusal:
        print(refusal)
        sys.exit(1)


def read_fill(octets, message):
    book = Book(octets)
    records = book.list(message)
    try:
        alone, fields = words(book.place(message, [], Element.FIELD, QUANTITY), message), FIELDS
    except Refused as refusal:
        if refusal.number != Refusal.PLACE_UNKNOWN:
            raise
        # The book has no such field.
        alone, fields = refusal, FIELDS[:QUANTITY]
    show(fields, has_deliveries(book, message), records, message)
    print("filled quantity, asked alone: %s" % alone)
    print("written back: %s" % written_back(book, records, message))


def has_deliveries(book, message):
    """Whether the book has them, whatever the message has."""
    try:
        book.place(message, [(MILLS, 0)], Element.GROUP, DELIVERIES)
    except Refused as refusal:
        return refusal.number != Refusal.PLACE_UNKNOWN
    return True


def show(fields, deliveries, records, message):
    """A line for each record of the listing, with its element's name."""
    rest = iter(records)

    def lines(*names):
        """A line for each name, and how many entries the last one has, if it is a group."""
        entries = 0
        for name, record in zip(names, rest):
            print("%-17s%s" % (name, words(record, message)))
            entries = record[1] if record[0] == Kind.GROUP else 0
        return range(entries)

    for _ in lines(*fields, "mills"):
        lines(*MILL)
        for _ in lines("  deliveries") if deliveries else ():
            lines(*DELIVERY)
    lines("note")


def words(record, message):
    """What a record says."""
    first, second, third = record
    if first == Kind.NUMBER:
        return str(signed(second))
    if first == Kind.NULL:
        return "null"
    if first == Kind.OCTETS:
        return text(message[second:second + third])
    if first == Kind.ABSENT:
        return "absent: it is younger than the message"
    if first == Kind.GROUP:
        return "group of %d" % second
    if first == Kind.OUT_OF_RANGE:
        return "out of range: %d" % signed(second)
    return "unlisted: %d" % second


def signed(number):
    """No field of a fill is a uint64, so every value is that of a signed number."""
    return number - 2**64 if number >= 2**63 else number


def text(octets):
    """The octets as characters; those that cannot be shown are dots."""
    return "".join(chr(octet) if 32 <= octet < 127 else "." for octet in octets)


def written_back(book, records, message):
    """Writes a message of the book's own version from the records: is it the message that was read?"""
    try:
        written = book.write(FILL, records, message)
    except Refused as refusal:
        return refusal
    return "%d octets, %s" % (len(written), "the same" if written == message else "not the same")


def octets_of(path):
    try:
        with open(path, "rb") as file:
            return file.read()
    except OSError as error:
        return stop("%s: %s" % (path, error.strerror))


def stop(why):
    print(why, file=sys.stderr)
    sys.exit(2)


if __name__ == "__main__":
    main()
