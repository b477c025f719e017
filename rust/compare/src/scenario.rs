//! Small scenarios whose images are written to files, by the model's bytes, for trying the takeover program.

use crate::manager::Tables;
use crate::states::started;
use model::State;
use model::layout::{header, lock, lock_at};
use std::process::ExitCode;

const NL: u32 = 0;
const PR: u32 = 3;
const PW: u32 = 4;
const EX: u32 = 5;

/// A scenario: its name, what it is, and its image.
type Scenario = (&'static str, &'static str, fn() -> Vec<u8>);

const SCENARIOS: [Scenario; 4] = [
    ("pair", "unit 1 holds vip-7 and waits for vip-8, which unit 2 holds; vip-9 is read by both", pair),
    ("lost", "unit 1 was lost and purged: unit 2 holds vip-7 and vip-8", lost),
    ("empty", "no lock at all", empty),
    ("unsound", "the pair's image with a chain that doesn't end", unsound),
];

fn image(state: &State) -> Vec<u8> {
    let (words, slots) = state.to_tables();
    Tables { words, slots }.bytes()
}

fn pair_state() -> State {
    let mut state = started(4, 16);
    let requests: [(u32, u32, &[u8]); 7] = [
        (1, EX, b"vip-7"),
        (2, EX, b"vip-7"),
        (2, EX, b"vip-8"),
        (1, EX, b"vip-8"),
        (1, PR, b"vip-9"),
        (2, PR, b"vip-9"),
        (2, NL, b"vip-9"),
    ];
    for (client, mode, name) in requests {
        state.request(client, mode, 0, name).expect("accepted");
    }
    state.convert(2, 7, PW, 0, b"").expect("accepted");
    state
}

fn pair() -> Vec<u8> {
    image(&pair_state())
}

fn lost() -> Vec<u8> {
    let mut state = pair_state();
    state.purge(1).expect("accepted");
    image(&state)
}

fn empty() -> Vec<u8> {
    image(&started(4, 16))
}

fn unsound() -> Vec<u8> {
    let (mut words, slots) = pair_state().to_tables();
    let first_link = lock_at(words[header::RESOURCES], 1, lock::HOME);
    words[first_link] = 1;
    Tables { words, slots }.bytes()
}

/// Writes the image of a scenario to a file.
pub fn write(name: &str, file: &str) -> ExitCode {
    let Some((.., make)) = SCENARIOS.iter().find(|(known, ..)| *known == name) else {
        eprintln!("there is no scenario `{name}`");
        return ExitCode::from(2);
    };
    match std::fs::write(file, make()) {
        Ok(()) => ExitCode::SUCCESS,
        Err(error) => {
            eprintln!("{file}: {error}");
            ExitCode::FAILURE
        }
    }
}

/// Tells what scenarios there are.
pub fn tell() -> ExitCode {
    SCENARIOS.iter().for_each(|(name, what, _)| println!("{name:8} {what}"));
    ExitCode::SUCCESS
}

#[cfg(test)]
mod tests {
    use super::*;

    #[test]
    fn holders_are_as_told() {
        assert_eq!(model::entries::holder(&pair(), b"vip-7"), Ok(1));
        assert_eq!(model::entries::holder(&pair(), b"vip-8"), Ok(2));
        assert_eq!(model::entries::holder(&pair(), b"vip-9"), Ok(0));
        assert_eq!(model::entries::holder(&lost(), b"vip-7"), Ok(2));
        assert_eq!(model::entries::holder(&empty(), b"vip-7"), Ok(0));
        assert_eq!(model::entries::holder(&unsound(), b"vip-7"), Err(model::Refused::UNSOUND));
    }
}
