//! Fields, and their numbers in octets: eight octets are read or stored at once, whatever the width. Of a text the
//! first NUL is looked for octet by octet.

use super::names::Names;
use super::{Record, NULL, NUMBER, OCTETS, OUT_OF_RANGE, UNLISTED};
use plain::NameList;

pub struct Field {
    pub since: u16,
    array: bool,
    /// An array whose octets end before the first NUL.
    text: bool,
    optional: bool,
    signed: bool,
    /// 64 less the bits of a number.
    shift: u32,
    offset: usize,
    octets: usize,
    /// A number is in range if it is at most `span` above `least`.
    least: u64,
    span: u64,
    null: u64,
    names: Names,
}

impl Field {
    pub fn compiled(field: &plain::Field, list: Option<&NameList>) -> Field {
        let kind = field.kind();
        Field {
            since: field.since,
            array: field.is_array(),
            text: field.is_text(),
            optional: field.is_optional(),
            signed: kind.signed,
            shift: 64 - 8 * kind.octets as u32,
            offset: field.offset.into(),
            octets: field.octets(),
            least: kind.least as u64,
            span: (kind.greatest - kind.least) as u64,
            null: kind.null as u64,
            names: Names::compiled(list, kind.octets),
        }
    }

    pub fn end(&self) -> usize {
        self.offset + self.octets
    }

    /// The record of the field in a block that starts at `start`, in a message that is long enough.
    #[inline(always)]
    pub fn read<const BIG: bool>(&self, message: &[u8], start: usize) -> Record {
        let at = start + self.offset;
        if self.array {
            return self.read_array(message, at);
        }
        let eight = eight::<BIG>(message, at);
        let top = if BIG { eight } else { eight << self.shift };
        let value = if self.signed { ((top as i64) >> self.shift) as u64 } else { top >> self.shift };
        let null = self.optional && value == self.null;
        let listed = if self.names.have(value) { NUMBER } else { UNLISTED };
        let kind = if self.holds(value) { listed } else { OUT_OF_RANGE };
        [if null { NULL } else { kind }, if null { 0 } else { value }, 0]
    }

    #[inline]
    fn read_array(&self, message: &[u8], at: usize) -> Record {
        if !self.text {
            return [OCTETS, at as u64, self.octets as u64];
        }
        let octets = &message[at..at + self.octets];
        match octets.iter().position(|&octet| octet == 0) {
            None => [OCTETS, at as u64, self.octets as u64],
            Some(0) if self.optional => [NULL, 0, 0],
            Some(length) => [OCTETS, at as u64, length as u64],
        }
    }

    #[inline]
    fn holds(&self, value: u64) -> bool {
        value.wrapping_sub(self.least) <= self.span
    }

    /// Whether the record can be written for the field.
    #[inline]
    pub fn takes(&self, record: &[u64], pool: &[u8]) -> bool {
        let (kind, second, third) = (record[0], record[1], record[2]);
        if self.array && kind == NULL {
            return self.text && self.optional && second == 0 && third == 0;
        }
        if self.array {
            let within = second.checked_add(third).map_or(false, |end| end <= pool.len() as u64);
            return kind == OCTETS && within && self.fits(&pool[second as usize..][..third as usize]);
        }
        let number = kind == NUMBER && self.holds(second) && self.names.have(second);
        let null = kind == NULL && self.optional && second == 0;
        (number || null) && third == 0
    }

    /// Whether the octets can be written for the array.
    #[inline]
    fn fits(&self, octets: &[u8]) -> bool {
        if !self.text {
            return octets.len() == self.octets;
        }
        let least = usize::from(self.optional);
        least <= octets.len() && octets.len() <= self.octets && !octets.contains(&0)
    }

    /// The refusal's number for a record that the field does not take.
    #[cold]
    pub fn fault(&self, record: &[u64]) -> u32 {
        match (self.array, record) {
            (true, [OCTETS, ..]) => 53,
            (true, [NULL, 0, 0]) if self.text => 52,
            (false, [NUMBER, _, 0]) | (false, [NULL, 0, 0]) => 52,
            _ => 51,
        }
    }

    /// Stores the field of a record that it takes, in a room whose octets from there on are zero. A number may leave
    /// zeros in the seven octets after it, so fields are stored in their order. A text that is null has no octets.
    #[inline]
    pub fn write<const BIG: bool>(&self, record: &[u64], pool: &[u8], room: &mut [u8], start: usize) {
        let at = start + self.offset;
        if self.array {
            let (first, length) = (record[1] as usize, record[2] as usize);
            return room[at..at + length].copy_from_slice(&pool[first..first + length]);
        }
        let value = if record[0] == NUMBER { record[1] } else { self.null };
        let top = value << self.shift;
        let octets = if BIG { top.to_be_bytes() } else { (top >> self.shift).to_le_bytes() };
        match room.get_mut(at..at + 8) {
            Some(room) => room.copy_from_slice(&octets),
            None => narrow(&mut room[at..], self.octets, octets),
        }
    }
}

/// Eight octets from `at` on as a number, zeros past the end. A message has eight octets at least.
#[inline]
fn eight<const BIG: bool>(message: &[u8], at: usize) -> u64 {
    let first = at.min(message.len() - 8);
    let octets = message[first..first + 8].try_into().expect("eight octets");
    let past = 8 * (at - first) as u32;
    if BIG {
        u64::from_be_bytes(octets) << past
    } else {
        u64::from_le_bytes(octets) >> past
    }
}

/// Stores a number near the room's end.
fn narrow(room: &mut [u8], width: usize, octets: [u8; 8]) {
    match width {
        1 => room[0] = octets[0],
        2 => room[..2].copy_from_slice(&octets[..2]),
        4 => room[..4].copy_from_slice(&octets[..4]),
        _ => room[..8].copy_from_slice(&octets),
    }
}
