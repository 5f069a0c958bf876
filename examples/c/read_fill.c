/*
 * Reads a fill, asks for its filled quantity alone, and writes it back: read_fill BOOK MESSAGE.
 *
 * Prints what the fill says, or the refusal. Exit status: 0 read, 1 refused, 2 without two files.
 */
#include <inttypes.h>
#include <stdio.h>
#include <stdlib.h>
#include <string.h>

#include "siphonbard.h"

/* The template of a fill, and its elements in the order of a listing: fields, the group of mills, a note. In a mill's
 * entry there may be a group of deliveries. */
#define FILL 1
static const char *const FIELDS[] = {"order", "price", "delivery week", "side", "conditions", "filled quantity"};
static const char *const MILL[] = {"  mill", "  share"};
static const char *const DELIVERY[] = {"    week", "    tonnes"};

/* The filled quantity is this field of the root block. The oldest book lacks it. */
#define QUANTITY 5

/* The deliveries are this group of a mill. Only the newest book has them. */
static const uint64_t FIRST_MILL[] = {0, 0};
#define DELIVERIES 0

/* One octet more than a message may have, so that the library sees one that is too long. A book has fewer. */
#define LONGEST 65536

/* For how many records there is room at first: more than most fills have. */
#define FIRST 64

typedef struct {
    size_t len;
    uint8_t octets[LONGEST];
} file;

/* A book that is checked and prepared once, for the calls for streams. Nothing alters its numbers. */
typedef struct {
    size_t len;
    uint64_t numbers[SIPHONBARD_PREPARED_MOST];
} prepared;

/* What each refusal means: the header's words. */
static const char *const MEANING[] = {
    [SIPHONBARD_REFUSED_BOOK_SIZE] = "the book's octets are odd, under 8 or over 8,192",
    [SIPHONBARD_REFUSED_BOOK_HEAD] =
        "the book's head is cut short, its word count is wrong, its schema id or version is 65535, its byte order is "
        "neither 0 nor 1, its numbers of a dimension are neither 2 nor 4, it has no template or over 64, or its "
        "contents don't fit",
    [SIPHONBARD_REFUSED_BOOK_CONTENTS] = "the book's contents break a rule, or a template or list id is 65535",
    [SIPHONBARD_REFUSED_BOOK_BLOCK] =
        "a block runs past its body, body words are left over, a count or the depth is too high, a group has no field, "
        "or a list is empty, too long, not rising or of no known kind",
    [SIPHONBARD_REFUSED_BOOK_LAYOUT] =
        "a block length, or a field's type, length, presence, offset or list, breaks its rule",
    [SIPHONBARD_REFUSED_BOOK_SINCE] = "a since breaks its rule",
    [SIPHONBARD_REFUSED_BOOK_UNSENDABLE] =
        "a header, a template's root block, a dimension per root group and two octets per root data exceed 65,535 "
        "octets together",
    [SIPHONBARD_REFUSED_MESSAGE_SIZE] = "the message is under 12 or over 65,535 octets",
    [SIPHONBARD_REFUSED_HEADER_NULL] = "a header number is 65535",
    [SIPHONBARD_REFUSED_SCHEMA_DIFFERS] = "the message's schema id is not the book's",
    [SIPHONBARD_REFUSED_TEMPLATE_UNKNOWN] = "the book has no such template",
    [SIPHONBARD_REFUSED_ROOT_BLOCK_SHORT] = "the root block length is under the need",
    [SIPHONBARD_REFUSED_COUNTS_WRONG] = "the number of groups is wrong, or else the number of data",
    [SIPHONBARD_REFUSED_PAST_THE_END] = "an element runs past the message's end",
    [SIPHONBARD_REFUSED_DIMENSION_NULL] = "a dimension holds 65535",
    [SIPHONBARD_REFUSED_GROUP_BLOCK_SHORT] = "a known group's block length is under the need",
    [SIPHONBARD_REFUSED_DATA_LENGTH_NULL] = "a data length is 65535",
    [SIPHONBARD_REFUSED_OCTETS_LEFT_OVER] = "octets are left over",
    [SIPHONBARD_REFUSED_GROUP_COUNTS_WRONG] = "a known group's number of groups is wrong, or its number of data",
    [SIPHONBARD_REFUSED_GROUP_TOO_DEEP] = "a group is below depth four",
    [SIPHONBARD_REFUSED_PLACE_UNKNOWN] = "the place has over four steps, or a number that the book lacks",
    [SIPHONBARD_REFUSED_ENTRY_MISSING] = "an entry is not below its group's count",
    [SIPHONBARD_REFUSED_ROOM_TOO_SMALL] =
        "the room is below three numbers per record, or below a prepared book's numbers",
    [SIPHONBARD_REFUSED_WRITE_TEMPLATE_UNKNOWN] = "the book has no such template to write",
    [SIPHONBARD_REFUSED_RECORD_WRONG] =
        "a record is missing, left over, partial or of the wrong kind, or an unused number is not 0",
    [SIPHONBARD_REFUSED_VALUE_WRONG] =
        "a number is null, out of range or unlisted, or null stands for a required field",
    [SIPHONBARD_REFUSED_OCTETS_WRONG] =
        "octets run past the pool's end, are not as many as a uint8 array's, or are data over 65,534; or a text is "
        "longer than its field, has a NUL in it, or is empty for an optional field",
    [SIPHONBARD_REFUSED_ENTRIES_TOO_MANY] = "a group has over 65,534 entries",
    [SIPHONBARD_REFUSED_MESSAGE_TOO_LONG] = "the message is longer than the room or than 65,535 octets",
};

/* The place of a refusal, by what it counts; nothing where it is always 0. */
static void show_place(uint64_t number, uint64_t place)
{
    if (number == SIPHONBARD_REFUSED_BOOK_BLOCK)
        printf(" in body %" PRIu64, place);
    if (number >= SIPHONBARD_REFUSED_BOOK_LAYOUT && number <= SIPHONBARD_REFUSED_BOOK_UNSENDABLE)
        printf(" in template %" PRIu64, place);
    if (number >= SIPHONBARD_REFUSED_MESSAGE_SIZE && number <= SIPHONBARD_REFUSED_GROUP_TOO_DEEP)
        printf(" at octet %" PRIu64, place);
    if (number == SIPHONBARD_REFUSED_ROOM_TOO_SMALL)
        printf(" for %" PRIu64 " records", place);
    if (number >= SIPHONBARD_REFUSED_RECORD_WRONG && number <= SIPHONBARD_REFUSED_ENTRIES_TOO_MANY)
        printf(" at record %" PRIu64, place);
}

/* The refusal: its number and place, in words. */
static void show_refusal(uint64_t number, uint64_t place)
{
    printf("refused %" PRIu64, number);
    show_place(number, place);
    printf(": %s\n", MEANING[number]);
}

/* The octets as characters; those that cannot be shown are dots. */
static void show_text(const uint8_t *octets, uint64_t len)
{
    for (uint64_t i = 0; i < len; i++)
        putchar(octets[i] >= 32 && octets[i] < 127 ? octets[i] : '.');
    putchar('\n');
}

/* What a record says. No field of a fill is a uint64, so every value is that of a signed number. */
static void show_answer(uint64_t first, uint64_t second, uint64_t third, const file *message)
{
    switch (first) {
    case SIPHONBARD_IS_NUMBER: printf("%" PRId64 "\n", (int64_t)second); break;
    case SIPHONBARD_IS_NULL: printf("null\n"); break;
    case SIPHONBARD_IS_OCTETS: show_text(message->octets + second, third); break;
    case SIPHONBARD_IS_ABSENT: printf("absent: it is younger than the message\n"); break;
    case SIPHONBARD_IS_GROUP: printf("group of %" PRIu64 "\n", second); break;
    case SIPHONBARD_IS_OUT_OF_RANGE: printf("out of range: %" PRId64 "\n", (int64_t)second); break;
    case SIPHONBARD_IS_UNLISTED: printf("unlisted: %" PRIu64 "\n", second); break;
    }
}

/* The records of a listing that are still to be shown, and their message. */
typedef struct {
    const uint64_t *next;
    size_t left;
    const file *message;
} unshown;

/* A line for the next record, with its element's name. How many entries there are, if it is a group. */
static uint64_t show_next(unshown *rest, const char *name)
{
    const uint64_t *record = rest->next;
    if (rest->left == 0)
        return 0;
    printf("%-17s", name);
    show_answer(record[0], record[1], record[2], rest->message);
    rest->next += 3;
    rest->left--;
    return record[0] == SIPHONBARD_IS_GROUP ? record[1] : 0;
}

static void show_each(unshown *rest, const char *const *names, size_t count)
{
    for (size_t i = 0; i < count; i++)
        show_next(rest, names[i]);
}

/* A line for each record. So many fields of the root are known, and the deliveries or not. */
static void show(size_t fields, int deliveries, unshown rest)
{
    show_each(&rest, FIELDS, fields);
    for (uint64_t mills = show_next(&rest, "mills"); mills > 0; mills--) {
        show_each(&rest, MILL, 2);
        for (uint64_t weeks = deliveries ? show_next(&rest, "  deliveries") : 0; weeks > 0; weeks--)
            show_each(&rest, DELIVERY, 2);
    }
    show_next(&rest, "note");
}

/* Writes a message of the book's own version from the listing: is it the message that was read? */
static void write_back(const prepared *book, const uint64_t *listing, size_t count, const file *message)
{
    static uint8_t room[LONGEST];
    siphonbard_counted written = siphonbard_stream_write(book->numbers, book->len, FILL, listing, 3 * count,
                                                         message->octets, message->len, room, sizeof room);
    printf("written back: ");
    if (written.number) {
        show_refusal(written.number, written.place);
        return;
    }
    int same = written.count == message->len && memcmp(room, message->octets, message->len) == 0;
    printf("%" PRIu64 " octets, %s\n", written.count, same ? "the same" : "not the same");
}

/* Whether the book has the element that was asked for, whatever the message has. */
static int is_known(siphonbard_found asked)
{
    return asked.number != SIPHONBARD_REFUSED_PLACE_UNKNOWN;
}

/* What the fill says, by the listing that it was read into. */
static void show_fill(const prepared *book, const uint64_t *listing, size_t count, const file *message)
{
    siphonbard_found quantity = siphonbard_stream_place(book->numbers, book->len, message->octets, message->len, NULL,
                                                        0, SIPHONBARD_ASK_FIELD, QUANTITY);
    siphonbard_found deliveries = siphonbard_stream_place(book->numbers, book->len, message->octets, message->len,
                                                          FIRST_MILL, 2, SIPHONBARD_ASK_GROUP, DELIVERIES);
    unshown rest = {listing, count, message};

    show(is_known(quantity) ? QUANTITY + 1 : QUANTITY, is_known(deliveries), rest);
    printf("filled quantity, asked alone: ");
    if (quantity.number)
        show_refusal(quantity.number, quantity.place);
    else
        show_answer(quantity.first, quantity.second, quantity.third, message);
    write_back(book, listing, count, message);
}

/* A fill that has more records than there was room for: the refusal's place was how many. */
static int read_long_fill(const prepared *book, const file *message, uint64_t records)
{
    uint64_t *listing = calloc(records, 3 * sizeof *listing);
    if (!listing) {
        perror("no room for the listing");
        return 2;
    }
    /* The message was accepted and there is room now: this is not refused. */
    siphonbard_stream_list(book->numbers, book->len, message->octets, message->len, listing, 3 * records);
    show_fill(book, listing, records, message);
    free(listing);
    return 0;
}

static int read_fill(const prepared *book, const file *message)
{
    uint64_t listing[3 * FIRST];
    siphonbard_counted listed =
        siphonbard_stream_list(book->numbers, book->len, message->octets, message->len, listing, 3 * FIRST);
    if (listed.number == SIPHONBARD_REFUSED_ROOM_TOO_SMALL)
        return read_long_fill(book, message, listed.place);
    if (listed.number) {
        show_refusal(listed.number, listed.place);
        return 1;
    }
    show_fill(book, listing, listed.count, message);
    return 0;
}

/* Checks the book and prepares it. There is room for any, so that only the book itself can be refused. */
static int prepare(const file *octets, prepared *book)
{
    siphonbard_counted counted =
        siphonbard_prepare(octets->octets, octets->len, book->numbers, SIPHONBARD_PREPARED_MOST);
    if (counted.number)
        show_refusal(counted.number, counted.place);
    book->len = counted.count;
    return counted.number == 0;
}

static void open_file(const char *path, file *into)
{
    FILE *from = fopen(path, "rb");
    into->len = from ? fread(into->octets, 1, LONGEST, from) : 0;
    if (!from || ferror(from)) {
        perror(path);
        exit(2);
    }
    fclose(from);
}

int main(int argc, char **argv)
{
    static file octets, message;
    static prepared book;
    if (argc != 3) {
        fprintf(stderr, "usage: read_fill BOOK MESSAGE\n");
        return 2;
    }
    open_file(argv[1], &octets);
    open_file(argv[2], &message);
    return prepare(&octets, &book) ? read_fill(&book, &message) : 1;
}
