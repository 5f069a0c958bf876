/*
 * Siphonbard: checks schema books, checks FIX SBE 1.0 messages by them, answers what the messages say, and writes
 * messages.
 *
 * Link with libsiphonbard.a (`tools/archive` makes it; x86-64, System V). No call allocates, keeps a
 * pointer or touches memory that it was not lent, its stack aside; so any threads may call at the same time.
 *
 * A buffer is a pointer and the number of its elements. Length 0 is an empty buffer; its pointer is not followed and
 * may be null. A pointer with a length above 0 has that many readable elements (`room`: writable, and apart from the
 * other buffers). Numbers are aligned to 8 octets, as any uint64_t is in C; octets may stand anywhere.
 *
 * Every reply begins with a `number` and a `place`. After success both are 0. Else they are the refusal, and the call
 * has altered nothing that it was lent.
 *
 * A book says in its head whether its messages are little-endian or big-endian, and whether a group's dimension has two
 * numbers or four, and the calls read and write them so: nothing else is to be done for it. A book's own words are
 * little-endian whatever its messages are, and the numbers that a call is lent and gives are those of the processor.
 */
#ifndef SIPHONBARD_H
#define SIPHONBARD_H

#include <stddef.h>
#include <stdint.h>

#ifdef __cplusplus
extern "C" {
#endif

/*
 * ---- Refusals: the `number` of a reply, when it is given, and what its `place` is ----
 *
 * Places of 10 to 22 are offsets in the message; templates, lists and records count from 0. The book is judged first,
 * then the message in the order of the wire, then the call's own arguments; one refusal is given. Of a book's own, the
 * lowest number is, 4 of a template before 4 of a list. Of writing's own, 50 comes first, then 51 to 54 at the first
 * record at fault (51 first within it), then 51 for what is left over, and 55 last.
 */

/* When the book's octets are odd, under 8 or over 8,192. Place: 0. */
#define SIPHONBARD_REFUSED_BOOK_SIZE 1
/*
 * When the book's head is cut short, its word count is wrong, its schema id or version is 65535, its byte order is
 * neither 0 nor 1, its numbers of a dimension are neither 2 nor 4, it has no template or over 64, or its contents don't
 * fit. Place: 0.
 */
#define SIPHONBARD_REFUSED_BOOK_HEAD 2
/* When the book's contents break a rule, or a template or list id is 65535. Place: 0. */
#define SIPHONBARD_REFUSED_BOOK_CONTENTS 3
/*
 * When a block runs past its body, body words are left over, a count or the depth is too high, a group has no field, or
 * a list is empty, too long, not rising or of no known kind. Place: the template's number, or the number of templates
 * plus the list's position.
 */
#define SIPHONBARD_REFUSED_BOOK_BLOCK 4
/*
 * When a block length, or a field's type, length, presence, offset or list, breaks its rule. Place: the template's
 * number.
 */
#define SIPHONBARD_REFUSED_BOOK_LAYOUT 5
/* When a since breaks its rule. Place: the template's number. */
#define SIPHONBARD_REFUSED_BOOK_SINCE 6
/*
 * When a header, a template's root block, a dimension per root group and two octets per root data exceed 65,535 octets
 * together. Place: the template's number.
 */
#define SIPHONBARD_REFUSED_BOOK_UNSENDABLE 7

/* When the message is under 12 or over 65,535 octets. Place: 0. */
#define SIPHONBARD_REFUSED_MESSAGE_SIZE 10
/* When a header number is 65535. Place: the first such number's offset. */
#define SIPHONBARD_REFUSED_HEADER_NULL 11
/* When the message's schema id is not the book's. Place: 4. */
#define SIPHONBARD_REFUSED_SCHEMA_DIFFERS 12
/* When the book has no such template. Place: 2. */
#define SIPHONBARD_REFUSED_TEMPLATE_UNKNOWN 13
/* When the root block length is under the need. Place: 0. */
#define SIPHONBARD_REFUSED_ROOT_BLOCK_SHORT 14
/* When the number of groups is wrong, or else the number of data. Place: 8 for groups, 10 for data. */
#define SIPHONBARD_REFUSED_COUNTS_WRONG 15
/* When an element runs past the message's end. Place: the element's start. */
#define SIPHONBARD_REFUSED_PAST_THE_END 16
/* When a dimension holds 65535. Place: the dimension's start. */
#define SIPHONBARD_REFUSED_DIMENSION_NULL 17
/* When a known group's block length is under the need. Place: the dimension's start. */
#define SIPHONBARD_REFUSED_GROUP_BLOCK_SHORT 18
/* When a data length is 65535. Place: the data's start. */
#define SIPHONBARD_REFUSED_DATA_LENGTH_NULL 19
/* When octets are left over. Place: the first of them. */
#define SIPHONBARD_REFUSED_OCTETS_LEFT_OVER 20
/* When a known group's number of groups is wrong, or its number of data. Place: the dimension's start. */
#define SIPHONBARD_REFUSED_GROUP_COUNTS_WRONG 21
/* When a group is below depth four. Place: the dimension's start. */
#define SIPHONBARD_REFUSED_GROUP_TOO_DEEP 22

/* When the place has over four steps, or a number that the book lacks. Place: 0. */
#define SIPHONBARD_REFUSED_PLACE_UNKNOWN 30
/* When an entry is not below its group's count. Place: 0. */
#define SIPHONBARD_REFUSED_ENTRY_MISSING 31

/*
 * When the room is below three numbers per record, or below a prepared book's numbers. Place: the number of records,
 * or of a prepared book's numbers.
 */
#define SIPHONBARD_REFUSED_ROOM_TOO_SMALL 40

/* When the book has no such template to write. Place: 0. */
#define SIPHONBARD_REFUSED_WRITE_TEMPLATE_UNKNOWN 50
/*
 * When a record is missing, left over, partial or of the wrong kind, or an unused number is not 0. Place: the
 * record's number.
 */
#define SIPHONBARD_REFUSED_RECORD_WRONG 51
/* When a number is null, out of range or unlisted, or null stands for a required field. Place: the record's number. */
#define SIPHONBARD_REFUSED_VALUE_WRONG 52
/*
 * When octets run past the pool's end, are not as many as a uint8 array's, or are data over 65,534; or a text is longer
 * than its field, has a NUL in it, or is empty for an optional field. Place: the record's number.
 */
#define SIPHONBARD_REFUSED_OCTETS_WRONG 53
/* When a group has over 65,534 entries. Place: the record's number. */
#define SIPHONBARD_REFUSED_ENTRIES_TOO_MANY 54
/* When the message is longer than the room or than 65,535 octets. Place: 0. */
#define SIPHONBARD_REFUSED_MESSAGE_TOO_LONG 55

/*
 * ---- Records: three numbers each, of which the first is the kind ----
 *
 * A negative value x stands as 2^64 + x. Absent is what is younger than the message, even where its block has octets
 * there. Out of range is a number outside its type's range, or null where the field is required. Unlisted is a number
 * in its type's range that the field's name list lacks, or that has a bit 1 which the list lacks: a code or flags of
 * which the book does not say what they mean.
 *
 * Octets are an array or a data. Those of a char array, which is text, end before its first NUL. A text that starts
 * with NUL is null if the field is optional; else it has no octets, and starts where the field does. A text that fills
 * its field has no NUL behind it: it is no string of C.
 *
 *                                      Second number                      Third number
 */
#define SIPHONBARD_IS_NUMBER 0       /* its value                          0 */
#define SIPHONBARD_IS_NULL 1         /* 0                                  0 */
#define SIPHONBARD_IS_OCTETS 2       /* where they start in the message    how many they are */
#define SIPHONBARD_IS_ABSENT 3       /* 0                                  0 */
#define SIPHONBARD_IS_GROUP 4        /* its number of entries              0 */
#define SIPHONBARD_IS_OUT_OF_RANGE 5 /* its value                          0 */
#define SIPHONBARD_IS_UNLISTED 6     /* its value                          0 */

/* What a place asks for: not to be compared with the kind of a record. */
#define SIPHONBARD_ASK_FIELD 0
#define SIPHONBARD_ASK_GROUP 1
#define SIPHONBARD_ASK_DATA 2

/* Room for any prepared book: none has more numbers. */
#define SIPHONBARD_PREPARED_MOST 8260

/* The verdict of a check. `number` is 0: accepted, and `place` is 0. Else the refusal's number and its place. */
typedef struct {
    uint64_t number, place;
} siphonbard_checked;

/*
 * A number of records, of a written message's octets, or of a prepared book's numbers. `number` is 0: `place` is 0, and
 * `count` holds. Else the refusal's number and its place, and `count` is 0.
 */
typedef struct {
    uint64_t number, place, count;
} siphonbard_counted;

/*
 * What stands at one place. `number` is 0: `place` is 0, and `first`, `second` and `third` are a record. Else the
 * refusal's number and its place, and these three are 0 and no record.
 */
typedef struct {
    uint64_t number, place, first, second, third;
} siphonbard_found;

/*
 * ---- Calls that take any octets whatever ----
 *
 * All but the first check and prepare the book at each call, in 66 kB of the stack (8,260 numbers).
 */

/* Whether the octets are a schema book: accepted, or 1 to 7. */
siphonbard_checked siphonbard_check_book(const uint8_t *book, size_t book_len);

/* Whether the message is one of the book's: accepted, or 1 to 22. */
siphonbard_checked siphonbard_check(const uint8_t *book, size_t book_len, const uint8_t *message,
                                    size_t message_len);

/*
 * Lists the message into the room, three numbers a record, and gives how many records there are, or 1 to 40. Per
 * block: a record per field; per group a record and then the block of each entry; a record per data. Numbers of the
 * room past the last record are left as they were; after a refusal all of them are. `room_len` counts numbers, not
 * records.
 *
 * The place of SIPHONBARD_REFUSED_ROOM_TOO_SMALL is the number of records, whatever the room: lend three numbers for
 * each of them, and list again. To ask for that number alone, list into an empty room (`room_len` is 0, and `room` may
 * be null): one walk checks and counts, so this pays for the checking walk alone. A message without records is
 * accepted there, with a count of 0. A first room that is large enough for most messages saves them the asking.
 */
siphonbard_counted siphonbard_list(const uint8_t *book, size_t book_len, const uint8_t *message,
                                   size_t message_len, uint64_t *room, size_t room_len);

/*
 * What stands at one place of the message, or 1 to 31. `steps` leads down to a block: a group's number and an
 * entry's by turns, at most four pairs; an absent group has no entries. `ask` is SIPHONBARD_ASK_FIELD, _GROUP or _DATA
 * (any other is answered 30), and `element` says which one of that block. All count from 0.
 *
 * `steps_len` counts numbers, not steps: two steps are four numbers and have a `steps_len` of 4. With a `steps_len` of
 * 2 only the first of them is seen, and the call answers for a place of the shallower block to which it leads. An odd
 * `steps_len` is answered 30.
 */
siphonbard_found siphonbard_place(const uint8_t *book, size_t book_len, const uint8_t *message,
                                  size_t message_len, const uint64_t *steps, size_t steps_len, uint64_t ask,
                                  uint64_t element);

/*
 * Writes a message of the template from the listing, at the room's start, and gives how many octets it has, or 1 to 7
 * or 50 to 55. The listing has a record per element, in the order of siphonbard_list; its starts count from the
 * pool's first octet, and SIPHONBARD_IS_ABSENT, SIPHONBARD_IS_OUT_OF_RANGE and SIPHONBARD_IS_UNLISTED are answered 51.
 * The listing of a message is written back with that message as the pool.
 *
 * The message has the book's version, byte order, declared block lengths, dimensions and counts, and zeros where a
 * block has no field. A text may have fewer octets than its field, which is filled with NUL; an optional one that would
 * have none is given as SIPHONBARD_IS_NULL.
 *
 * Octets of the room past the message are left as they were; after a refusal all of them are. `listing_len` counts
 * numbers, not records; a `template_id` over 65535 is answered 50.
 */
siphonbard_counted siphonbard_write(const uint8_t *book, size_t book_len, uint64_t template_id,
                                    const uint64_t *listing, size_t listing_len, const uint8_t *pool,
                                    size_t pool_len, uint8_t *room, size_t room_len);

/*
 * ---- Calls for streams: many messages by one book ----
 *
 * siphonbard_prepare takes any octets whatever and makes a list of numbers of the book, once. The other calls take
 * these numbers: the same answers, without checking and preparing the book again at each message.
 *
 * YOUR DUTY: `prepared` and `prepared_len` are the numbers that siphonbard_prepare stored, all of them (`prepared_len`
 * is its count), and none has been altered since. Nothing checks this. With any other numbers the behaviour is
 * undefined: the call may read or write outside its buffers or not return. The message, the steps, the listing and the
 * rest may be anything.
 *
 * The book's octets are not needed any more. The numbers may be copied elsewhere, all of them; they are not for another
 * version of the library.
 */

/*
 * Checks the book, stores its prepared numbers from the room's start, and gives how many they are; or 1 to 7 as
 * siphonbard_check_book, or 40. Numbers of the room past them are left as they were; after a refusal all of them are.
 *
 * The place of SIPHONBARD_REFUSED_ROOM_TOO_SMALL is how many numbers there are, whatever the room. To ask for that
 * alone, prepare into an empty room (`room_len` is 0, and `room` may be null). SIPHONBARD_PREPARED_MOST are enough for
 * any book.
 */
siphonbard_counted siphonbard_prepare(const uint8_t *book, size_t book_len, uint64_t *room, size_t room_len);

/* Whether the message is one of the book's: accepted, or 10 to 22. */
siphonbard_checked siphonbard_stream_check(const uint64_t *prepared, size_t prepared_len, const uint8_t *message,
                                           size_t message_len);

/* Lists the message into the room, or 10 to 40. The room and the place of 40 are as siphonbard_list has them. */
siphonbard_counted siphonbard_stream_list(const uint64_t *prepared, size_t prepared_len, const uint8_t *message,
                                          size_t message_len, uint64_t *room, size_t room_len);

/* What stands at one place of the message, as siphonbard_place says it, or 10 to 31. */
siphonbard_found siphonbard_stream_place(const uint64_t *prepared, size_t prepared_len, const uint8_t *message,
                                         size_t message_len, const uint64_t *steps, size_t steps_len, uint64_t ask,
                                         uint64_t element);

/* Writes a message of the template, as siphonbard_write does, or 50 to 55. What is left in the room is alike. */
siphonbard_counted siphonbard_stream_write(const uint64_t *prepared, size_t prepared_len, uint64_t template_id,
                                           const uint64_t *listing, size_t listing_len, const uint8_t *pool,
                                           size_t pool_len, uint8_t *room, size_t room_len);

#ifdef __cplusplus
}
#endif

#endif
