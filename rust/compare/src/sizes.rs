//! Sizes of tables that games and counts name: R and L.

use model::layout::{self, MOST_LOCKS, MOST_RESOURCES, resource};

pub type Sizes = (u32, u32);

pub const SMALLEST: Sizes = (1, 1);
pub const SMALL: Sizes = model::lockplay::SIZES;
pub const MIDDLE: Sizes = (64, 256);
pub const LARGEST: Sizes = (MOST_RESOURCES, MOST_LOCKS);

/// How many words the library's smaller buffers hold, into which it decodes an image: those of tables of these sizes. The largest one holds all
/// (`crates/entry_image`).
pub const BUFFERS: [usize; 2] = [words((6, 8)), words((95, 256))];

pub const fn words((resources, locks): Sizes) -> usize {
    layout::words(resources, locks)
}

/// The lengths of tables in words and slot bytes.
pub fn lengths(resources: u32, locks: u32) -> (usize, usize) {
    (layout::words(resources, locks), layout::slots(resources))
}

/// Sizes with so many words, if there are any: with the fewest locks, and not the most resources.
const fn with_words(count: usize) -> Option<Sizes> {
    let mut locks = 1;
    while locks <= MOST_LOCKS && layout::words(1, locks) <= count {
        let resources = ((count - layout::words(0, locks)) / resource::WIDTH) as u32;
        if resources < MOST_RESOURCES && layout::words(resources, locks) == count {
            return Some((resources, locks));
        }
        locks += 1;
    }
    None
}

/// The largest tables that a buffer has room for.
pub const fn fitting(room: usize) -> Sizes {
    match with_words(room) {
        Some(sizes) => sizes,
        None => fitting(room - 1),
    }
}

/// The smallest tables that a buffer has no room for.
pub const fn over(room: usize) -> Sizes {
    match with_words(room + 1) {
        Some(sizes) => sizes,
        None => over(room + 1),
    }
}

#[cfg(test)]
mod tests {
    use super::*;

    #[test]
    fn buffers_have_tables_at_their_edges() {
        for room in BUFFERS {
            let (below, above) = (words(fitting(room)), words(over(room)));
            let all = (1..=MOST_RESOURCES).flat_map(|resources| (1..=MOST_LOCKS).map(move |locks| layout::words(resources, locks)));
            let between = all.filter(|count| (below + 1..above).contains(count)).count();
            assert!(below <= room && room < above && between == 0, "{room}: {below}, {above}");
        }
    }
}
