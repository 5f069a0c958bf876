use std::error::Error;
use std::fmt;

/// A call said no: the number of the rule that is broken, and where.
///
/// 1 to 7 are the book's (the place is 0, or a template's number from 4 on; of 4 the lists count on behind the
/// templates), 10 to 22 the message's (the place is an offset in it), 30 and 31 those of a place asked for, 40 that of
/// a listing's room (the place is the number of records), 50 to 55 those of writing (the place is 0, or a record's
/// number from 51 to 54). A refused call altered nothing. A [`Book`](crate::Book) makes its own room, so that 40 is
/// never that of preparing.
///
/// ```
/// use siphonbard::{check_book, Refusal};
///
/// let refusal = check_book(b"no book").unwrap_err();
/// assert_eq!(refusal, Refusal { number: Refusal::BOOK_SIZE, place: 0 });
/// assert_eq!(refusal.to_string(), "refused 1: the book's octets are odd, under 8 or over 8,192");
///
/// let refusal = Refusal { number: Refusal::PAST_THE_END, place: 28 };
/// assert_eq!(refusal.to_string(), "refused 16 at octet 28: an element runs past the message's end");
/// assert_eq!(refusal.place_meaning(), "the element's start");
/// ```
#[derive(Clone, Copy, Debug, PartialEq, Eq, Hash)]
pub struct Refusal {
    /// Which rule.
    pub number: u8,
    /// Where: 0, a template's number (of 4 perhaps a list's, behind them), an offset in the message, or a record's
    /// number; of 40 the number of records.
    pub place: usize,
}

// The one table of the crate: a number's name, when a call is refused with it, and what its place is.
macro_rules! refusals {
    ($($name:ident = $number:literal, $when:literal, $place:literal;)*) => {
        impl Refusal {
            $(
                #[doc = concat!("When ", $when, ". Place: ", $place, ".")]
                pub const $name: u8 = $number;
            )*

            /// When a call is refused with this number, in words.
            pub fn meaning(&self) -> &'static str {
                match self.number {
                    $($number => $when,)*
                    _ => "unknown",
                }
            }

            /// What the place of a refusal with this number is, in words; or the one number that it always is.
            pub fn place_meaning(&self) -> &'static str {
                match self.number {
                    $($number => $place,)*
                    _ => "unknown",
                }
            }
        }
    };
}

refusals! {
    BOOK_SIZE = 1, "the book's octets are odd, under 8 or over 8,192", "0";
    BOOK_HEAD = 2, "the book's head is cut short, its word count is wrong, its schema id or version is 65535, \
        its byte order is neither 0 nor 1, its numbers of a dimension are neither 2 nor 4, it has no template or \
        over 64, or its contents don't fit", "0";
    BOOK_CONTENTS = 3, "the book's contents break a rule, or a template or list id is 65535", "0";
    BOOK_BLOCK = 4, "a block runs past its body, body words are left over, a count or the depth is too high, \
        a group has no field, or a list is empty, too long, not rising or of no known kind",
        "the template's number, or the number of templates plus the list's position";
    BOOK_LAYOUT = 5, "a block length, or a field's type, length, presence, offset or list, breaks its rule",
        "the template's number";
    BOOK_SINCE = 6, "a since breaks its rule", "the template's number";
    BOOK_UNSENDABLE = 7, "a header, a template's root block, a dimension per root group and two octets per root data \
        exceed 65,535 octets together", "the template's number";
    MESSAGE_SIZE = 10, "the message is under 12 or over 65,535 octets", "0";
    HEADER_NULL = 11, "a header number is 65535", "the first such number's offset";
    SCHEMA_DIFFERS = 12, "the message's schema id is not the book's", "4";
    TEMPLATE_UNKNOWN = 13, "the book has no such template", "2";
    ROOT_BLOCK_SHORT = 14, "the root block length is under the need", "0";
    COUNTS_WRONG = 15, "the number of groups is wrong, or else the number of data", "8 for groups, 10 for data";
    PAST_THE_END = 16, "an element runs past the message's end", "the element's start";
    DIMENSION_NULL = 17, "a dimension holds 65535", "the dimension's start";
    GROUP_BLOCK_SHORT = 18, "a known group's block length is under the need", "the dimension's start";
    DATA_LENGTH_NULL = 19, "a data length is 65535", "the data's start";
    OCTETS_LEFT_OVER = 20, "octets are left over", "the first of them";
    GROUP_COUNTS_WRONG = 21, "a known group's number of groups is wrong, or its number of data",
        "the dimension's start";
    GROUP_TOO_DEEP = 22, "a group is below depth four", "the dimension's start";
    PLACE_UNKNOWN = 30, "the place has over four steps, or a number that the book lacks", "0";
    ENTRY_MISSING = 31, "an entry is not below its group's count", "0";
    ROOM_TOO_SMALL = 40, "the room is below three numbers per record, or below a prepared book's numbers",
        "the number of records, or of a prepared book's numbers";
    WRITE_TEMPLATE_UNKNOWN = 50, "the book has no such template to write", "0";
    RECORD_WRONG = 51, "a record is missing, left over, partial or of the wrong kind, or an unused number is not 0",
        "the record's number";
    VALUE_WRONG = 52, "a number is null, out of range or unlisted, or null stands for a required field",
        "the record's number";
    OCTETS_WRONG = 53, "octets run past the pool's end, are not as many as a uint8 array's, or are data over 65,534; \
        or a text is longer than its field, has a NUL in it, or is empty for an optional field",
        "the record's number";
    ENTRIES_TOO_MANY = 54, "a group has over 65,534 entries", "the record's number";
    MESSAGE_TOO_LONG = 55, "the message is longer than the room or than 65,535 octets", "0";
}

impl fmt::Display for Refusal {
    fn fmt(&self, f: &mut fmt::Formatter) -> fmt::Result {
        write!(f, "refused {}", self.number)?;
        match self.number {
            Refusal::BOOK_BLOCK => write!(f, " in body {}", self.place)?,
            Refusal::BOOK_LAYOUT..=Refusal::BOOK_UNSENDABLE => write!(f, " in template {}", self.place)?,
            Refusal::MESSAGE_SIZE..=Refusal::GROUP_TOO_DEEP => write!(f, " at octet {}", self.place)?,
            Refusal::ROOM_TOO_SMALL => write!(f, " for {} records", self.place)?,
            Refusal::RECORD_WRONG..=Refusal::ENTRIES_TOO_MANY => write!(f, " at record {}", self.place)?,
            _ => {}
        }
        write!(f, ": {}", self.meaning())
    }
}

impl Error for Refusal {}
