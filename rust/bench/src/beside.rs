//! Calls on a name that many locks hold: whether they take longer where there are more of them.

use crate::call::{Call, Tables, lock};
use crate::fill::{SIZES, accepted, name, started};

/// How many locks hold CR on the name.
pub const HOLDERS: [u32; 3] = [4, 64, 1020];

/// A kind of call on the name.
pub struct Beside {
    pub title: &'static str,
    /// What comes before it on fresh tables, with so many locks that hold the name or are to hold it, and the call.
    make: fn(&mut Tables, u32) -> Call,
}

/// Calls that have to know what is held, or where the queue of those who hold ends.
pub const BESIDE: &[Beside] = &[
    Beside { title: "request, granted", make: request_granted },
    Beside { title: "convert, not down, in place", make: convert_in_place },
    Beside { title: "release of the first, sweep grants a request", make: release_first_for_request },
    Beside { title: "release of the last, sweep grants a request", make: release_last_for_request },
    Beside { title: "release of the first, sweep grants a conversion", make: release_first_for_conversion },
    Beside { title: "release, sweep grants them all", make: release_for_all },
];

const NL: u32 = 0;
const CR: u32 = 1;
const PW: u32 = 4;
const EX: u32 = 5;

/// Has lock 1, the first of the grant queue.
const FIRST: u32 = 250;
/// Has no lock at first.
const OTHER: u32 = 251;
/// Has the last lock of the grant queue, where it has one.
const LAST: u32 = 252;
/// Has no lock.
const NOBODY: u32 = 253;

/// Refused after the check, since the lock is another client's.
pub const REFUSED: Call = Call::Release { client: NOBODY, lock: 1 };

impl Beside {
    /// The tables with so many holders, and the call.
    pub fn tables(&self, holders: u32) -> (Tables, Call) {
        let mut tables = started(SIZES[SIZES.len() - 1]);
        let call = (self.make)(&mut tables, holders);
        (tables, call)
    }
}

fn request(tables: &mut Tables, client: u32, mode: u32) -> u32 {
    lock(accepted(tables, &Call::Request { client, mode, name: name(0) }))
}

/// Lock 1 in the mode, and then so many locks that ask for CR.
fn fill(tables: &mut Tables, mode: u32, holders: u32) {
    request(tables, FIRST, mode);
    for number in 0..holders {
        request(tables, 1 + number % 200, CR);
    }
}

fn request_granted(tables: &mut Tables, holders: u32) -> Call {
    fill(tables, NL, holders);
    Call::Request { client: OTHER, mode: CR, name: name(0) }
}

fn convert_in_place(tables: &mut Tables, holders: u32) -> Call {
    fill(tables, NL, holders);
    Call::Convert { client: FIRST, lock: 1, mode: PW }
}

/// The client's lock, which holds PW, is released: PW goes with CR and not with PW, so that one lock that waits for PW gets
/// it. Nobody has a mark.
fn release(tables: &mut Tables, client: u32, lock: u32) -> Call {
    accepted(tables, &Call::Poll { client });
    Call::Release { client, lock }
}

fn release_first_for_request(tables: &mut Tables, holders: u32) -> Call {
    fill(tables, PW, holders);
    request(tables, OTHER, PW);
    release(tables, FIRST, 1)
}

fn release_last_for_request(tables: &mut Tables, holders: u32) -> Call {
    fill(tables, NL, holders);
    let last = request(tables, LAST, PW);
    request(tables, OTHER, PW);
    release(tables, LAST, last)
}

fn release_first_for_conversion(tables: &mut Tables, holders: u32) -> Call {
    fill(tables, PW, holders);
    let lock = request(tables, OTHER, NL);
    accepted(tables, &Call::Convert { client: OTHER, lock, mode: PW });
    release(tables, FIRST, 1)
}

fn release_for_all(tables: &mut Tables, holders: u32) -> Call {
    fill(tables, EX, holders);
    release(tables, FIRST, 1)
}
