"""schema_book: makes schema books from a description in words. make.py shows how; for a book of your own, copy both.

A book is words of 16 bits, least significant octet first. Nothing is judged here: siphonbard_check_book does that."""
import struct

TYPES = ["char", "int8", "uint8", "int16", "uint16", "int32", "uint32", "int64", "uint64"]
PRESENCES = ["required", "optional"]
BYTE_ORDERS = ["little", "big"]


def field(id, type, offset, length=1, presence="required", since=0, list=None):
    """Seven words. A char of a length over 1 is a text of up to so many octets, a uint8 of a length over 1 is so many
    plain octets. The id is a label, such as a FIX tag. The list is the id of one in the book."""
    names = 0 if list is None else list + 1
    return [id, number(type, TYPES), length, offset, number(presence, PRESENCES), since, names]


def data(id, since=0):
    """Two words."""
    return [id, since]


def block(length, fields=(), groups=(), datas=()):
    """The declared length in octets and the numbers of fields, groups and data; then the fields, the data, the groups.
    Offsets rise, and each field ends before the next begins and within the length. What is between is padding."""
    rows = [*fields, *datas, *groups]
    return [length, len(fields), len(groups), len(datas)] + [word for row in rows for word in row]


def group(id, block, since=0):
    """Its id and since, then its block, which has at least one field; the first field has the group's since."""
    return [id, since] + block


def enumeration(values):
    """A list of codes, for a char, uint8 or uint16: numbers, or the characters of bytes."""
    return [0, *sorted(values)]


def flags(bits):
    """A list of bits by their numbers, the least significant being 0, for an unsigned type."""
    return [1, *sorted(bits)]


def book(schema, version, templates, lists={}, byte_order="little", dimension=2):
    """The octets of a book with a block for each template id, and an enumeration or flags for each list id. The byte
    order is that of its messages: "big" where the sender's are big-endian. The dimension is how many numbers a group's
    has: 4 where the sender counts groups and data there. A template's block leaves room in the 65,535 octets of a
    message for a header, for a dimension for each of its groups and for two octets for each of its data."""
    return octets(words(schema, version, sorted(templates.items()), sorted(lists.items()), byte_order, dimension))


def words(schema, version, templates, lists=(), byte_order="little", dimension=2):
    """The head: schema id, version, number of templates, number of words, number of lists, byte order of messages,
    numbers of a dimension. The contents, a row for each template and then one for each list, ids rising: its id, the
    first word of its body, the words in its body. Then the bodies, back to back: of a template one block, of a list its
    kind and its numbers."""
    first = 7 + 3 * (len(templates) + len(lists))
    contents, bodies = [], []
    for id, body in [*templates, *lists]:
        contents += [id, first + len(bodies), len(body)]
        bodies += body
    head = [schema, version, len(templates), first + len(bodies), len(lists)]
    return head + [number(byte_order, BYTE_ORDERS), dimension] + contents + bodies


def octets(words):
    return struct.pack("<%dH" % len(words), *words)


def number(name, names):
    """A name's number; a number stands for itself."""
    return name if isinstance(name, int) else names.index(name)
