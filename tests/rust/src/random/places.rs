//! Random places: mostly ones that a message has, the others wrong in one number.

use plain::{message::Part, Block, Message, Place, Rng};

/// A place in the message, and now and then one that it or its book lacks.
pub fn near(rng: &mut Rng, message: &Message) -> Place {
    let mut place = Place { steps: Vec::new(), kind: 0, element: 0 };
    descend(rng, message.block, Some(&message.root), &mut place);
    if rng.chance(15) {
        spoil(rng, &mut place);
    }
    place
}

/// Any numbers, for a message or a book that is refused.
pub fn any(rng: &mut Rng) -> Place {
    let steps = (0..rng.below(6)).map(|_| (rng.below(3) as u64, rng.below(3) as u64)).collect();
    Place { steps, kind: rng.below(4) as u64, element: rng.below(3) as u64 }
}

/// Steps down the book, into an entry where the message has one, and ends at an element.
fn descend(rng: &mut Rng, block: &Block, part: Option<&Part>, place: &mut Place) {
    if !block.groups.is_empty() && rng.chance(60) {
        let number = rng.below(block.groups.len());
        let entries = part.map_or(&[][..], |part| part.entries(number));
        let past = entries.is_empty() || rng.chance(5);
        let entry = rng.below(entries.len() + usize::from(past));
        place.steps.push((number as u64, entry as u64));
        return descend(rng, &block.groups[number].block, entries.get(entry), place);
    }
    let counts = [block.fields.len(), block.groups.len(), block.data.len()];
    let held: Vec<usize> = (0..3).filter(|&kind| counts[kind] > 0 || rng.chance(5)).collect();
    let kind = if held.is_empty() { 0 } else { rng.pick(&held) };
    place.kind = kind as u64;
    let count = counts[kind];
    let past = count == 0 || rng.chance(5);
    place.element = rng.below(count + usize::from(past)) as u64;
}

fn spoil(rng: &mut Rng, place: &mut Place) {
    let wild = rng.pick(&[1, 4, 16, 64, 65535, 1 << 32, 1 << 63, u64::MAX]);
    match (rng.below(5), place.steps.last_mut()) {
        (0, _) => place.kind = rng.pick(&[3, 255, 1 << 32, u64::MAX]),
        (1, Some(step)) => step.0 = wild,
        (2, Some(step)) => step.1 = wild,
        (3, Some(&mut step)) => place.steps.resize(rng.between(4, 6), step),
        _ => place.element = wild,
    }
}
