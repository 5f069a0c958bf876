"""siphonbard.py: the calls of include/siphonbard.h, by ctypes over a shared object.

The shared object is linked from the static library:

    gcc -shared -o libsiphonbard.so -Wl,--whole-archive libsiphonbard.a -Wl,--no-whole-archive

SIPHONBARD_SO says where it is; else it is where examples/run puts it.
"""
import ctypes
import enum
import os


class Kind(enum.IntEnum):
    """The first number of a record. The header's table says what the second and the third are."""

    NUMBER = 0
    NULL = 1
    OCTETS = 2
    ABSENT = 3
    GROUP = 4
    OUT_OF_RANGE = 5
    UNLISTED = 6


class Element(enum.IntEnum):
    """What a place asks for. These are no kinds of records."""

    FIELD = 0
    GROUP = 1
    DATA = 2


class Book:
    """A book that is checked and prepared once, for many messages. It owns the prepared numbers, which nothing here
    alters: so the calls for streams get what was stored for them. Message and pool are bytes. A record is a tuple of
    three numbers, of which the first is a Kind. Whether messages are little-endian or big-endian, and how many numbers
    a group's dimension has, is said by the book: the calls are the same."""

    def __init__(self, octets):
        room = (Number * PREPARED_MOST)()
        prepared = prepare(bytes(octets), len(octets), room, len(room))
        self._book = (Number * prepared.count).from_buffer_copy(room), prepared.count

    def list(self, message):
        """The records of the message. Where there are more than FIRST, the refusal's place is how many."""
        try:
            return self._list(message, FIRST)
        except Refused as refused:
            if refused.number != Refusal.ROOM_TOO_SMALL:
                raise
            return self._list(message, refused.place)

    def place(self, message, steps, element, number):
        """The record of one place: that of an Element of the block to which the steps lead, by its number there. A step
        is a group's number and an entry's."""
        steps = numbers(steps)
        found = answer_at(*self._book, message, len(message), steps, len(steps), element, number)
        return found.first, found.second, found.third

    def write(self, template_id, records, pool):
        """A message of the template from the records, whose starts refer to the pool. A text may be shorter than its
        field; an optional one that would be empty is given as NULL."""
        listing, room = numbers(records), ctypes.create_string_buffer(LONGEST)
        written = write(*self._book, template_id, listing, len(listing), pool, len(pool), room, LONGEST)
        return room.raw[:written.count]

    def _list(self, message, most):
        """The records of the message, into room for so many."""
        room = (Number * (3 * most))()
        listed = list_into(*self._book, message, len(message), room, len(room))
        return [tuple(room[at:at + 3]) for at in range(0, 3 * listed.count, 3)]


def text(record, message):
    """The octets of an OCTETS record in the message that it is of, as a str, where all of them are ASCII; else None. A
    char array's end before its first NUL."""
    first, start, length = record
    octets = message[start:start + length]
    is_text = first == Kind.OCTETS and len(octets) == length and octets.isascii()
    return octets.decode("ascii") if is_text else None


class Refused(Exception):
    """A call said no: the number of the rule that is broken, a Refusal, and where. As text, in words."""

    def __init__(self, number, place):
        self.number, self.place = Refusal(number), place

    def __str__(self):
        at = ""
        for first, last, words in COUNTED:
            if first <= self.number <= last:
                at = words % self.place
        return "refused %d%s: %s" % (self.number, at, self.number.meaning)


class Refusal(enum.IntEnum):
    """The number of a refusal: when a call is refused with it, and what its place is."""

    def __new__(cls, number, meaning, place_meaning):
        refusal = int.__new__(cls, number)
        refusal._value_, refusal.meaning, refusal.place_meaning = number, meaning, place_meaning
        return refusal

    BOOK_SIZE = 1, "the book's octets are odd, under 8 or over 8,192", "0"
    BOOK_HEAD = (
        2,
        "the book's head is cut short, its word count is wrong, its schema id or version is 65535, its byte order is "
        "neither 0 nor 1, its numbers of a dimension are neither 2 nor 4, it has no template or over 64, or its "
        "contents don't fit",
        "0",
    )
    BOOK_CONTENTS = 3, "the book's contents break a rule, or a template or list id is 65535", "0"
    BOOK_BLOCK = (
        4,
        "a block runs past its body, body words are left over, a count or the depth is too high, a group has no field, "
        "or a list is empty, too long, not rising or of no known kind",
        "the template's number, or the number of templates plus the list's position",
    )
    BOOK_LAYOUT = (
        5,
        "a block length, or a field's type, length, presence, offset or list, breaks its rule",
        "the template's number",
    )
    BOOK_SINCE = 6, "a since breaks its rule", "the template's number"
    BOOK_UNSENDABLE = (
        7,
        "a header, a template's root block, a dimension per root group and two octets per root data exceed 65,535 "
        "octets together",
        "the template's number",
    )
    MESSAGE_SIZE = 10, "the message is under 12 or over 65,535 octets", "0"
    HEADER_NULL = 11, "a header number is 65535", "the first such number's offset"
    SCHEMA_DIFFERS = 12, "the message's schema id is not the book's", "4"
    TEMPLATE_UNKNOWN = 13, "the book has no such template", "2"
    ROOT_BLOCK_SHORT = 14, "the root block length is under the need", "0"
    COUNTS_WRONG = 15, "the number of groups is wrong, or else the number of data", "8 for groups, 10 for data"
    PAST_THE_END = 16, "an element runs past the message's end", "the element's start"
    DIMENSION_NULL = 17, "a dimension holds 65535", "the dimension's start"
    GROUP_BLOCK_SHORT = 18, "a known group's block length is under the need", "the dimension's start"
    DATA_LENGTH_NULL = 19, "a data length is 65535", "the data's start"
    OCTETS_LEFT_OVER = 20, "octets are left over", "the first of them"
    GROUP_COUNTS_WRONG = (
        21,
        "a known group's number of groups is wrong, or its number of data",
        "the dimension's start",
    )
    GROUP_TOO_DEEP = 22, "a group is below depth four", "the dimension's start"
    PLACE_UNKNOWN = 30, "the place has over four steps, or a number that the book lacks", "0"
    ENTRY_MISSING = 31, "an entry is not below its group's count", "0"
    ROOM_TOO_SMALL = (
        40,
        "the room is below three numbers per record, or below a prepared book's numbers",
        "the number of records, or of a prepared book's numbers",
    )
    WRITE_TEMPLATE_UNKNOWN = 50, "the book has no such template to write", "0"
    RECORD_WRONG = (
        51,
        "a record is missing, left over, partial or of the wrong kind, or an unused number is not 0",
        "the record's number",
    )
    VALUE_WRONG = (
        52,
        "a number is null, out of range or unlisted, or null stands for a required field",
        "the record's number",
    )
    OCTETS_WRONG = (
        53,
        "octets run past the pool's end, are not as many as a uint8 array's, or are data over 65,534; or a text is "
        "longer than its field, has a NUL in it, or is empty for an optional field",
        "the record's number",
    )
    ENTRIES_TOO_MANY = 54, "a group has over 65,534 entries", "the record's number"
    MESSAGE_TOO_LONG = 55, "the message is longer than the room or than 65,535 octets", "0"


# The first and the last of the refusals whose place counts bodies, templates, octets or records. The bodies of a book
# are its templates' and then its lists'. There is always room for a prepared book, so that 40 is a listing's.
COUNTED = [
    (Refusal.BOOK_BLOCK, Refusal.BOOK_BLOCK, " in body %d"),
    (Refusal.BOOK_LAYOUT, Refusal.BOOK_UNSENDABLE, " in template %d"),
    (Refusal.MESSAGE_SIZE, Refusal.GROUP_TOO_DEEP, " at octet %d"),
    (Refusal.ROOM_TOO_SMALL, Refusal.ROOM_TOO_SMALL, " for %d records"),
    (Refusal.RECORD_WRONG, Refusal.ENTRIES_TOO_MANY, " at record %d"),
]

# ---- The calls themselves ----

LONGEST = 65535  # octets of a message
PREPARED_MOST = 8260  # numbers of a prepared book: no book has more
FIRST = 64  # records that a listing has room for at first: more than most messages have

Number = ctypes.c_uint64
Lent = [ctypes.c_char_p, ctypes.c_size_t]  # octets: bytes are lent as they stand, zeros and all
LentNumbers = [ctypes.POINTER(Number), ctypes.c_size_t]


class Counted(ctypes.Structure):
    _fields_ = [("number", Number), ("place", Number), ("count", Number)]


class Found(ctypes.Structure):
    _fields_ = [("number", Number), ("place", Number), ("first", Number), ("second", Number), ("third", Number)]


def numbers(rows):
    """The numbers of all rows, to be lent."""
    flat = [number for row in rows for number in row]
    return (Number * len(flat))(*flat)


def accepted(reply, _function, _arguments):
    """ctypes asks this about each reply: the reply, or an exception if it is a refusal."""
    if reply.number:
        raise Refused(reply.number, reply.place)
    return reply


def call(name, reply, *arguments):
    function = getattr(LIBRARY, "siphonbard_" + name)
    function.restype, function.argtypes, function.errcheck = reply, arguments, accepted
    return function


FOLDER = os.path.dirname(os.path.abspath(__file__))
LIBRARY = ctypes.CDLL(os.environ.get("SIPHONBARD_SO") or FOLDER + "/../../target/examples/libsiphonbard.so")

prepare = call("prepare", Counted, *Lent, *LentNumbers)
list_into = call("stream_list", Counted, *LentNumbers, *Lent, *LentNumbers)
answer_at = call("stream_place", Found, *LentNumbers, *Lent, *LentNumbers, Number, Number)
write = call("stream_write", Counted, *LentNumbers, Number, *LentNumbers, *Lent, *Lent)
