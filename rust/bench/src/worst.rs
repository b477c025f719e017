//! The worst tables for break that were found. They are made by calls, and all of their locks are in use.
//!
//! Break rules out the locks that lead to none that is left, and those that none that is left leads to. Then it searches from each lock that
//! is left, in the order of the blocked chain, until one leads back to itself. So it takes longest where locks between two circles can't be
//! ruled out, stand before both on the blocked chain, and lead to those that come later on it and to the second circle, which is large.

use crate::call::{Call, Tables, lock};
use crate::fill::{SIZES, accepted, name, started};

/// Tables that break takes long on.
pub struct Worst {
    pub title: &'static str,
    /// What is in them.
    pub what: &'static str,
    make: fn(&mut Maker),
}

/// The worst tables.
pub const WORST: &[Worst] = &[
    Worst { title: "one line", what: "1,019 locks wait for one name, whose holder is in a circle.", make: one_line },
    Worst {
        title: "two lines",
        what: "508 locks wait for a client that is the last of 510 to wait for another one, which is in a circle.",
        make: two_lines,
    },
    Worst {
        title: "a line in a circle",
        what: "1,023 locks wait for one name, the last of them for a lock of its own client: the deepest search.",
        make: line_in_a_circle,
    },
    Worst {
        title: "conversions",
        what: "All locks hold CR on one name and convert to EX, each in the way of all others.",
        make: conversions,
    },
    Worst {
        title: "conversions behind a circle",
        what: "1,019 locks convert from NL to EX on one name, whose holder is in a circle.",
        make: conversions_behind_a_circle,
    },
    Worst {
        title: "a chain, from its end",
        what: "Each of 250 clients waits for the next, by a request and a conversion, so that a pass rules out one lock alone, the last; beside \
               a crowd.",
        make: chain_from_its_end,
    },
    Worst {
        title: "a chain, from its beginning",
        what: "Each of 245 clients waits for the next, and the last one for a crowd, so that a pass rules out one lock alone, the first.",
        make: chain_from_its_beginning,
    },
    Worst {
        title: "lines between circles",
        what: "48 lines of ten locks that ask for five modes wait for a crowd, each for a name of its own, and a circle waits for their client: each \
               lock of them is searched from in vain.",
        make: lines_between_circles,
    },
    Worst {
        title: "a chain of lines",
        what: "90 such lines, of which each waits for the client of the next, the last for a small crowd, and a circle waits for the client of the \
               first: each search in vain enters all later lines.",
        make: chain_of_lines,
    },
    Worst {
        title: "a chain of lines before a crowd",
        what: "The same with 50 lines, so that each search enters a crowd of 469 locks too.",
        make: chain_before_a_crowd,
    },
    Worst {
        title: "a chain of lines before a crowd of readers",
        what: "The same with a client that holds PW, and another one that converts from CR to EX: break passes over no holder of CR, as it does over \
               those of NL.",
        make: chain_before_readers,
    },
];

impl Worst {
    /// The tables.
    pub fn tables(&self) -> Tables {
        let size = SIZES[SIZES.len() - 1];
        let mut maker = Maker { tables: started(size), left: size.locks, names: 0 };
        (self.make)(&mut maker);
        assert_eq!(maker.left, 0, "`{}` has all locks in use", self.title);
        maker.tables
    }
}

const NL: u32 = 0;
const CR: u32 = 1;
const CW: u32 = 2;
const PR: u32 = 3;
const PW: u32 = 4;
const EX: u32 = 5;

/// Clients with a part of their own.
const FIRST: u32 = 1;
const SECOND: u32 = 2;
const CROWD: u32 = 3;
const CONVERTING: u32 = 4;
const BETWEEN: u32 = 5;

/// One of the other clients.
fn other(number: u32) -> u32 {
    6 + number % 250
}

struct Maker {
    tables: Tables,
    /// How many locks are free.
    left: u32,
    /// How many names are in use.
    names: u32,
}

impl Maker {
    /// A name that is not in use yet.
    fn fresh(&mut self) -> u32 {
        self.names += 1;
        self.names
    }

    fn request(&mut self, client: u32, mode: u32, at: u32) -> u32 {
        self.left -= 1;
        lock(accepted(&mut self.tables, &Call::Request { client, mode, name: name(at) }))
    }

    fn convert_to_ex(&mut self, client: u32, lock: u32) {
        accepted(&mut self.tables, &Call::Convert { client, lock, mode: EX });
    }

    /// A name that a client holds alone.
    fn held_by(&mut self, client: u32) -> u32 {
        let at = self.fresh();
        self.request(client, EX, at);
        at
    }

    /// Others wait for a name, until so many locks are left.
    fn wait(&mut self, at: u32, left: u32) {
        while self.left > left {
            self.request(other(self.left), EX, at);
        }
    }

    /// Two clients wait for each other: 4 locks.
    fn circle(&mut self) {
        let (first, second) = (self.held_by(FIRST), self.held_by(SECOND));
        self.request(FIRST, EX, second);
        self.request(SECOND, EX, first);
    }

    /// Two clients wait for each other, and one of them for a third client too: 5 locks.
    fn circle_behind(&mut self, third: u32) {
        let (first, second) = (self.fresh(), self.held_by(SECOND));
        self.request(third, CR, first);
        self.request(FIRST, CR, first);
        self.request(FIRST, EX, second);
        self.request(SECOND, EX, first);
    }

    /// A client holds a name, where another one converts many locks to EX; then the first waits there for other modes, each twice. What it
    /// holds is in the way of all of them, and of the locks that ask for one mode on a name two look at the holders: so all of them, and two
    /// of the conversions, look at all holders. The other client has blocked locks, too, and is in nobody's way: no look can end at a
    /// holder's owner, before its mode. So many locks are left.
    fn crowd(&mut self, crowd: &Crowd, left: u32) {
        let at = self.fresh();
        self.request(CROWD, crowd.holds, at);
        let converting = left + crowd.waits.len() as u32..self.left;
        let converting: Vec<u32> = converting.map(|_| self.request(CONVERTING, crowd.others, at)).collect();
        for lock in converting {
            self.convert_to_ex(CONVERTING, lock);
        }
        self.ask(CROWD, crowd.waits, at);
    }

    /// A client waits for a name once for each of some modes.
    fn ask(&mut self, client: u32, modes: &[u32], at: u32) {
        for mode in modes {
            self.request(client, *mode, at);
        }
    }

    /// The names of a chain: each is held by a client of its own.
    fn links(&mut self, count: u32) -> Vec<u32> {
        (0..count).map(|link| self.held_by(other(link))).collect()
    }

    /// Each client of a chain waits for the name of the next, by a request, and if it is to be `twice` also by a conversion, which stands ahead
    /// of the request and began to wait after it.
    fn wait_for_next(&mut self, names: &[u32], twice: bool) {
        let links = || (0..).map(other).zip(&names[1..]);
        let held: Vec<u32> = links().filter(|_| twice).map(|(client, at)| self.request(client, NL, *at)).collect();
        for (number, (client, at)) in links().enumerate() {
            self.request(client, EX, *at);
            if let Some(lock) = held.get(number) {
                self.convert_to_ex(client, *lock);
            }
        }
    }

    /// A client waits for a name with ten locks, all of which look at the holder.
    fn line(&mut self, client: u32, at: u32) {
        self.ask(client, &[EX, EX], at);
        self.ask(client, &OTHER_MODES, at);
    }

    /// So many lines, of which each waits for the client of the next, the last for the crowd; a circle waits for the first. They are blocked
    /// in this order.
    fn lines(&mut self, count: u32, crowd: &Crowd) {
        let names: Vec<u32> = (1..count).map(|next| self.held_by(other(next))).collect();
        let last = self.held_by(CROWD);
        for (number, at) in (0..).zip(names.into_iter().chain([last])) {
            self.line(other(number), at);
        }
        self.crowd(crowd, 5);
        self.circle_behind(other(0));
    }
}

/// The modes that a lock can wait for, but EX, each twice.
const OTHER_MODES: [u32; 8] = [PW, PW, PR, PR, CW, CW, CR, CR];

/// What the first client of a crowd holds and then waits for, and what the second one's locks hold.
struct Crowd {
    holds: u32,
    others: u32,
    waits: &'static [u32],
}

const IDLE: Crowd = Crowd { holds: EX, others: NL, waits: &OTHER_MODES };

const READERS: Crowd = Crowd { holds: PW, others: CR, waits: &[PW, PW, PR, PR, CW, CW] };

fn one_line(maker: &mut Maker) {
    let at = maker.held_by(FIRST);
    maker.wait(at, 4);
    maker.circle();
}

fn two_lines(maker: &mut Maker) {
    let near = maker.held_by(BETWEEN);
    maker.wait(near, maker.left / 2 + 4);
    let far = maker.held_by(FIRST);
    maker.wait(far, 5);
    maker.request(BETWEEN, EX, far);
    maker.circle();
}

fn line_in_a_circle(maker: &mut Maker) {
    let at = maker.held_by(FIRST);
    maker.wait(at, 1);
    maker.request(FIRST, EX, at);
}

fn conversions(maker: &mut Maker) {
    let at = maker.fresh();
    let held: Vec<(u32, u32)> = (0..maker.left).map(|number| (other(number), maker.request(other(number), CR, at))).collect();
    for (client, lock) in held {
        maker.convert_to_ex(client, lock);
    }
}

fn conversions_behind_a_circle(maker: &mut Maker) {
    let at = maker.held_by(FIRST);
    let held: Vec<(u32, u32)> = (4..maker.left).map(|number| (other(number), maker.request(other(number), NL, at))).collect();
    for (client, lock) in held {
        maker.convert_to_ex(client, lock);
    }
    maker.circle();
}

// The numbers of clients and lines make the product of what is tried and what is passed each time largest, but for `chain_of_lines`, which has
// next to no crowd.

fn chain_from_its_end(maker: &mut Maker) {
    let names = maker.links(250);
    maker.wait_for_next(&names, true);
    maker.crowd(&IDLE, 0);
}

fn chain_from_its_beginning(maker: &mut Maker) {
    let mut names = maker.links(245);
    names.push(maker.held_by(CROWD));
    maker.wait_for_next(&names, false);
    maker.crowd(&IDLE, 0);
}

fn lines_between_circles(maker: &mut Maker) {
    for _ in 0..48 {
        let at = maker.held_by(CROWD);
        maker.line(BETWEEN, at);
    }
    maker.crowd(&IDLE, 5);
    maker.circle_behind(BETWEEN);
}

fn chain_of_lines(maker: &mut Maker) {
    maker.lines(90, &IDLE);
}

fn chain_before_a_crowd(maker: &mut Maker) {
    maker.lines(50, &IDLE);
}

fn chain_before_readers(maker: &mut Maker) {
    maker.lines(50, &READERS);
}
