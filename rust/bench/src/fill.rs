//! The tables that calls are timed on.

use crate::call::{Areas, Call, Flat, Manager, Tables, lock, refused};
use std::ops::RangeInclusive;
use zamgyorud::layout::{self, MOST_LOCKS, MOST_RESOURCES};

/// Numbers of records.
#[derive(Clone, Copy, PartialEq, Eq)]
pub struct Size {
    pub resources: u32,
    pub locks: u32,
}

/// The sizes that are timed.
pub const SIZES: [Size; 3] =
    [Size { resources: 4, locks: 8 }, Size { resources: 64, locks: 256 }, Size { resources: MOST_RESOURCES, locks: MOST_LOCKS }];

/// How full tables are.
#[derive(Clone, Copy, PartialEq, Eq)]
pub enum Fill {
    /// No lock but those that the call needs.
    Empty,
    /// Half of the records are in use.
    Half,
    /// All are, but for the three locks and two resources that calls may need.
    Full,
    /// As many locks as in full tables, all on one name.
    Deep,
}

impl Fill {
    pub const ALL: [Fill; 4] = [Fill::Empty, Fill::Half, Fill::Full, Fill::Deep];

    pub fn title(self) -> &'static str {
        match self {
            Fill::Empty => "empty",
            Fill::Half => "half full",
            Fill::Full => "full",
            Fill::Deep => "full, one name",
        }
    }
}

/// Records that full tables leave to the calls.
const SPARE_LOCKS: u32 = 3;
const SPARE_RESOURCES: u32 = 2;

const NL: u32 = 0;
const CR: u32 = 1;
const CW: u32 = 2;
const PR: u32 = 3;
const PW: u32 = 4;
const EX: u32 = 5;

/// A name. All have 48 bytes and differ in the last ones only.
pub fn name(number: u32) -> Vec<u8> {
    format!("appliance/pair-07/service/front-address/{number:08}").into_bytes()
}

pub fn started(size: Size) -> Tables {
    let words = vec![0; layout::words(size.resources, size.locks)];
    let mut tables = Tables { words, slots: vec![0; layout::slots(size.resources)] };
    flat::start(&mut tables.words, &mut tables.slots, size.resources, size.locks).expect("sizes in range");
    tables
}

/// Makes a call that must be accepted.
pub fn accepted(tables: &mut Tables, call: &Call) -> u64 {
    let mut areas = Areas::new(tables);
    let answer = Flat::make(call, tables, &mut areas);
    assert!(!refused(answer), "a call that fills the tables is refused");
    answer
}

/// Tables of a size, filled. No deadlock is in them: clients up to 100 hold and never wait, those up to 200 wait and hold nothing, and those
/// above convert from NL, which is in nobody's way. All clients have heard of their marks.
pub fn filled(size: Size, fill: Fill) -> Tables {
    let mut tables = started(size);
    let (locks, names) = match fill {
        Fill::Empty => (0, 1),
        Fill::Half => (size.locks / 2, size.resources / 2),
        Fill::Full => (size.locks - SPARE_LOCKS, size.resources - SPARE_RESOURCES),
        Fill::Deep => (size.locks - SPARE_LOCKS, 1),
    };
    for number in 0..locks {
        if fill == Fill::Deep {
            add_deep(&mut tables, number, locks);
        } else {
            add_spread(&mut tables, number % names, number / names, number);
        }
    }
    for client in 1..=MOST_HOLDER {
        while lock(accepted(&mut tables, &Call::Poll { client })) != 0 {}
    }
    tables
}

fn request(tables: &mut Tables, client: u32, mode: u32, at: u32) -> u32 {
    lock(accepted(tables, &Call::Request { client, mode, name: name(at) }))
}

/// The largest client that holds a mode other than NL.
const MOST_HOLDER: u32 = 100;

fn holder(number: u32) -> u32 {
    1 + number % MOST_HOLDER
}

fn waiter(number: u32) -> u32 {
    101 + number % 100
}

/// The clients that convert.
pub const CONVERTERS: RangeInclusive<u32> = 201..=240;

fn converter(number: u32) -> u32 {
    CONVERTERS.start() + number % 40
}

/// One more lock on a name among many: names of four kinds, with holders, converters and waiters in layers.
fn add_spread(tables: &mut Tables, at: u32, layer: u32, number: u32) {
    match (at % 4, layer) {
        (0, 0) => request(tables, holder(number), EX, at),
        (0, layer) => request(tables, waiter(number), [PR, EX, CR][layer as usize % 3], at),
        (1, _) => request(tables, holder(number), PR, at),
        (2, 0) => request(tables, holder(number), PW, at),
        (2, 1) => {
            let lock = request(tables, converter(number), NL, at);
            accepted(tables, &Call::Convert { client: converter(number), lock, mode: EX });
            lock
        }
        (2, _) => request(tables, waiter(number), CR, at),
        (_, layer) => request(tables, holder(number), [CR, CW, NL][layer as usize % 3], at),
    };
}

/// One more lock on the one name: half of them hold PR, an eighth converts, the others wait.
fn add_deep(tables: &mut Tables, number: u32, of: u32) {
    if number < of / 2 {
        request(tables, holder(number), PR, 0);
    } else if number < of / 2 + of / 8 {
        request(tables, converter(number), NL, 0);
    } else {
        request(tables, waiter(number), [EX, PW][number as usize % 2], 0);
    }
    if number + 1 == of {
        convert_all_converters(tables, of);
    }
}

fn convert_all_converters(tables: &mut Tables, of: u32) {
    for number in of / 2..of / 2 + of / 8 {
        accepted(tables, &Call::Convert { client: converter(number), lock: number + 1, mode: EX });
    }
}
