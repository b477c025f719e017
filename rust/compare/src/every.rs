//! Every call in every state that is met first: small tables, few clients and names, all modes, breadth first from the start.

use crate::call::Call;
use crate::manager::{Manager, Tables, refusal};
use crate::play::{Board, Difference};
use model::layout::VALUE_BYTES;
use std::collections::HashSet;

/// What was looked at.
#[derive(Debug, Default, PartialEq, Eq)]
pub struct Explored {
    /// States in which every call was made.
    pub states: usize,
    /// States met, in which calls remain to be made if the number of states was limited.
    pub met: usize,
    pub calls: usize,
    pub accepted: usize,
}

/// A state, and how it was reached: from which one by which call.
struct Met {
    tables: Tables,
    from: usize,
    by: Call,
}

const CLIENTS: [u32; 2] = [1, 2];
const NAMES: [&[u8]; 2] = [b"a", b"b"];

/// All modes.
pub const MODES: [u32; 6] = [0, 1, 2, 3, 4, 5];

/// The calls made in every state, which ask for some modes.
fn calls(resources: u32, locks: u32, modes: &[u32]) -> Vec<Call> {
    let names = &NAMES[..NAMES.len().min(resources as usize)];
    let mut calls = vec![Call::Break];
    for client in CLIENTS {
        calls.extend([Call::Purge { client }, Call::Poll { client }]);
        for mode in modes.iter().copied() {
            let request = |name: &&[u8], flags| Call::Request { client, mode, flags, name: name.to_vec() };
            calls.extend(names.iter().flat_map(|name| [request(name, 0), request(name, 4)]));
        }
        for lock in 1..=locks {
            calls.extend([
                Call::Cancel { client, lock },
                Call::Read { client, lock, room: VALUE_BYTES },
                Call::List { client, lock, room: 4 },
            ]);
            calls.extend([0, 2].map(|flags| Call::Release { client, lock, flags, value: Vec::new() }));
            let modes = modes.iter().copied();
            calls.extend(modes.flat_map(|mode| [0, 6].map(|flags| Call::Convert { client, lock, mode, flags, value: Vec::new() })));
        }
    }
    calls
}

/// Makes every call in the first so many states. A difference comes with the calls that lead to it.
pub fn explore(
    first: &dyn Manager,
    second: &dyn Manager,
    (resources, locks): (u32, u32),
    modes: &[u32],
    most: usize,
) -> Result<Explored, (Vec<Call>, Difference)> {
    let start = Call::start(resources, locks);
    let mut board = Board::new(first, second);
    board.play(&start).map_err(|difference| (vec![start.clone()], difference))?;
    let mut seen = HashSet::from([board.tables().bytes()]);
    let mut met = vec![Met { tables: board.tables().clone(), from: 0, by: start }];
    let mut explored = Explored::default();
    let calls = calls(resources, locks, modes);
    while explored.states < met.len().min(most) {
        for call in &calls {
            board.set(&met[explored.states].tables);
            let outcome = board.play(call).map_err(|difference| (way(&met, explored.states, call), difference))?;
            explored.calls += 1;
            explored.accepted += usize::from(refusal(outcome.answer).is_none());
            if seen.insert(board.tables().bytes()) {
                met.push(Met { tables: board.tables().clone(), from: explored.states, by: call.clone() });
            }
        }
        explored.states += 1;
    }
    explored.met = met.len();
    Ok(explored)
}

/// The calls that lead to a state, and one more.
fn way(met: &[Met], state: usize, call: &Call) -> Vec<Call> {
    let mut calls = vec![call.clone()];
    let mut at = state;
    loop {
        calls.push(met[at].by.clone());
        if at == 0 {
            break;
        }
        at = met[at].from;
    }
    calls.reverse();
    calls
}

#[cfg(test)]
mod tests {
    use super::*;
    use crate::manager::{Flat, Model};

    #[test]
    fn one_lock_has_few_states() {
        // Free, or granted in one of six modes to one of two clients, with a value that is valid or, after flag 2, not.
        let explored = explore(&Model, &Flat, (1, 1), &MODES, 10_000).unwrap_or_else(|(_, difference)| panic!("{difference}"));
        assert_eq!(explored.states, explored.met, "all of them");
        assert_eq!(explored.states, 1 + 6 * 2 * 2);
    }

    /// All modes have 132,422 states, which `compare --every 200000` makes calls in. Here are the first of them.
    #[test]
    fn states_of_two_locks() {
        let explored = explore(&Model, &Flat, (1, 2), &MODES, 6_000).unwrap_or_else(|(_, difference)| panic!("{difference}"));
        assert_eq!(explored.states, 6_000);
    }

    /// With three locks a request can wait because of one that waits.
    #[test]
    fn states_of_three_locks() {
        let explored = explore(&Model, &Flat, (1, 3), &[0, 3, 5], 5_000).unwrap_or_else(|(_, difference)| panic!("{difference}"));
        assert_eq!(explored.states, 5_000);
    }

    /// NL, CW, PR and EX: modes that exclude each other either way, and marks that can be raised twice.
    #[test]
    fn all_states_of_two_locks_and_four_modes() {
        let explored = explore(&Model, &Flat, (1, 2), &[0, 2, 3, 5], 100_000).unwrap_or_else(|(_, difference)| panic!("{difference}"));
        assert_eq!(explored.states, explored.met, "all of them");
    }
}
