//! Compares two lock managers call by call, on chosen and seeded random lists of calls, and the program lockplay line by line. See the usage
//! text below.
#![forbid(unsafe_code)]

mod call;
mod counts;
mod damage;
mod damages;
mod events;
mod every;
#[cfg(test)]
mod faulty;
mod generate;
mod held;
mod inputs;
mod lines;
mod lockplay;
mod manager;
mod marks;
mod miscounts;
mod play;
mod program;
mod purges;
mod refusals;
mod rng;
mod scenario;
mod scripts;
mod sizes;
mod states;
mod sums;
mod tally;
mod waiters;

use crate::call::{Call, Entry};
use crate::counts::Counts;
use crate::generate::{CHOSEN, Game};
use crate::manager::{Flat, Manager, Model, refusal};
use crate::play::{Board, Difference, Outcome, play_list, shrink_calls};
use crate::rng::Rng;
use model::State;
use std::process::ExitCode;
use std::sync::atomic::{AtomicU64, Ordering};
use std::time::{Duration, Instant};

const USAGE: &str = "\
usage: compare [--calls N] [--seed S] [--with flat|library]   play N calls (200000) on the model and another manager
       compare --game G [--with flat|library]                 play the one game of seed G
       compare --every N [--with flat|library]                make every call in the first N states of small tables
       with --trace, each game's seed is told before it is played, for finding a crash
       compare image SCENARIO FILE                            write the image of a small scenario, by the model's bytes
       compare scenarios                                      tell the scenarios
       compare expect [SCRIPT]                                print what lockplay is to print for a script, or for standard input
       compare forms SCRIPT                                   tell whether a script has every kind of line, answer, refusal and branch
       compare lockplay PROGRAM [--runs N] [--seed S] SCRIPT..
                                                              compare what the program prints with the model, for the scripts, chosen
                                                              inputs and N random ones (1000)
The library is there if the program was built with --features library; it is then what the model is compared with.";

/// The game being played, for a report if a manager panics.
static GAME: AtomicU64 = AtomicU64::new(0);

fn main() -> ExitCode {
    let arguments: Vec<String> = std::env::args().skip(1).collect();
    let words: Vec<&str> = arguments.iter().map(String::as_str).collect();
    match words[..] {
        ["image", scenario, file] => scenario::write(scenario, file),
        ["scenarios"] => scenario::tell(),
        ["expect"] => scripts::expect(None),
        ["expect", script] => scripts::expect(Some(script)),
        ["forms", script] => scripts::forms(script),
        ["lockplay", program, ref rest @ ..] => scripts::lockplay(program, rest).unwrap_or_else(usage),
        _ => Options::read(&words).map_or_else(usage, |options| options.run()),
    }
}

fn usage() -> ExitCode {
    eprintln!("{USAGE}");
    ExitCode::from(2)
}

struct Options {
    calls: u64,
    seed: u64,
    game: Option<u64>,
    every: Option<usize>,
    with: String,
    trace: bool,
}

impl Options {
    fn read(words: &[&str]) -> Option<Options> {
        let usual = if cfg!(feature = "library") { "library" } else { "flat" };
        let mut options = Options { calls: 200_000, seed: 1, game: None, every: None, with: usual.to_string(), trace: false };
        let mut words = words.iter();
        while let Some(word) = words.next() {
            match *word {
                "--trace" => options.trace = true,
                "--calls" => options.calls = words.next()?.parse().ok()?,
                "--seed" => options.seed = words.next()?.parse().ok()?,
                "--game" => options.game = Some(words.next()?.parse().ok()?),
                "--every" => options.every = Some(words.next()?.parse().ok()?),
                "--with" => options.with = words.next()?.to_string(),
                _ => return None,
            }
        }
        Some(options)
    }

    fn run(&self) -> ExitCode {
        let Some(other) = manager(&self.with) else {
            eprintln!("there is no manager `{}` in this build", self.with);
            return ExitCode::from(2);
        };
        let told = std::panic::take_hook();
        std::panic::set_hook(Box::new(move |information| {
            eprintln!("panic in the game of seed {}", GAME.load(Ordering::Relaxed));
            told(information);
        }));
        match (self.game, self.every) {
            (Some(seed), _) => play_one(&*other, seed),
            (None, Some(states)) => play_every(&*other, states),
            (None, None) => self.play_all(&*other),
        }
    }

    /// Plays the chosen games, then others until there were enough calls, and tells what occurred.
    fn play_all(&self, other: &dyn Manager) -> ExitCode {
        println!("comparing the model with {}, {} calls, seed {}", self.with, self.calls, self.seed);
        let mut counts = Counts::default();
        let mut progress = Progress::new(self.calls);
        let mut games = 0;
        while counts.total() < self.calls {
            let seed = if games < CHOSEN { games } else { Rng::game_seed(self.seed, games) };
            games += 1;
            if self.trace {
                eprintln!("game of seed {seed}");
            }
            if let Err(failed) = play_game(&Model, other, seed, &mut counts, self.calls) {
                return failed.report(other);
            }
            progress.tell(counts.total());
        }
        println!("{games} games, {} calls in {:.1} s, no difference\n{counts}", counts.total(), progress.began.elapsed().as_secs_f64());
        verdict(&counts.missing(), &counts.unexpected())
    }
}

/// Fails if something expected never occurred, or something occurred that must not.
fn verdict(missing: &[String], unexpected: &[String]) -> ExitCode {
    missing.iter().for_each(|what| println!("NEVER OCCURRED: {what}"));
    unexpected.iter().for_each(|what| println!("NOT EXPECTED: {what}"));
    if missing.is_empty() && unexpected.is_empty() {
        println!("all that was expected occurred");
        ExitCode::SUCCESS
    } else {
        ExitCode::FAILURE
    }
}

fn manager(name: &str) -> Option<Box<dyn Manager>> {
    match name {
        "flat" => Some(Box::new(Flat)),
        #[cfg(feature = "library")]
        "library" => Some(Box::new(manager::Library)),
        _ => None,
    }
}

/// A line every few seconds while it runs long.
struct Progress {
    began: Instant,
    told: Instant,
    of: u64,
}

impl Progress {
    fn new(of: u64) -> Progress {
        Progress { began: Instant::now(), told: Instant::now(), of }
    }

    fn tell(&mut self, done: u64) {
        if self.told.elapsed() > Duration::from_secs(3) {
            self.told = Instant::now();
            eprintln!("{done} of {} calls, {} s", self.of, self.began.elapsed().as_secs());
        }
    }
}

/// A game in which the managers differ at the last call.
struct Failed {
    seed: u64,
    calls: Vec<Call>,
    difference: Difference,
}

impl Failed {
    /// Tells the seed, the shortest prefix, and a shorter list that shows a difference too.
    fn report(&self, other: &dyn Manager) -> ExitCode {
        println!("DIFFERENCE in the game of seed {} at call {}: {}", self.seed, self.calls.len(), self.difference);
        println!("  (first is the model)");
        let short = shrink_calls(&Model, other, &self.calls, 4000);
        println!("the same or another difference shows after these {} calls:", short.len());
        short.iter().enumerate().for_each(|(at, call)| println!("  {}. {call}", at + 1));
        if let Some((_, difference)) = play_list(&Model, other, &short) {
            println!("  {difference}");
        }
        println!("all {} calls of the shortest prefix of the game:", self.calls.len());
        self.calls.iter().enumerate().for_each(|(at, call)| println!("  {}. {call}", at + 1));
        ExitCode::FAILURE
    }
}

/// Makes every call in the first states of small tables of several sizes.
fn play_every(other: &dyn Manager, states: usize) -> ExitCode {
    for sizes in [(1, 1), (1, 2), (1, 3), (2, 3), (1, 4)] {
        match every::explore(&Model, other, sizes, &every::MODES, states) {
            Ok(explored) => println!(
                "R {}, L {}: {} calls ({} accepted) in {} of {} states met, no difference",
                sizes.0, sizes.1, explored.calls, explored.accepted, explored.states, explored.met
            ),
            Err((calls, difference)) => {
                println!("DIFFERENCE with R {}, L {} (first is the model): {difference}", sizes.0, sizes.1);
                calls.iter().enumerate().for_each(|(at, call)| println!("  {}. {call}", at + 1));
                return ExitCode::FAILURE;
            }
        }
    }
    ExitCode::SUCCESS
}

fn play_one(other: &dyn Manager, seed: u64) -> ExitCode {
    let mut counts = Counts::default();
    match play_game(&Model, other, seed, &mut counts, u64::MAX) {
        Err(failed) => failed.report(other),
        Ok(()) => {
            println!("{} calls, no difference\n{counts}", counts.total());
            ExitCode::SUCCESS
        }
    }
}

/// Plays one game to its end, or until there were enough calls.
fn play_game(first: &dyn Manager, second: &dyn Manager, seed: u64, counts: &mut Counts, enough: u64) -> Result<(), Failed> {
    GAME.store(seed, Ordering::Relaxed);
    let mut game = Game::new(seed);
    let mut board = Board::new(first, second);
    let mut calls = vec![game.opening()];
    let mut state = None;
    loop {
        let call = calls.last().expect("the opening at least");
        let before = board.tables().clone();
        let outcome = match board.play(call) {
            Ok(outcome) => outcome,
            Err(difference) => return Err(Failed { seed, calls, difference }),
        };
        let old = state.take();
        let new = if may_have_changed(call, &outcome) || old.is_none() { read_back(&board) } else { None };
        let (was, is) = (old.as_ref().or(new.as_ref()), new.as_ref().or(old.as_ref()));
        let (Some(was), Some(is)) = (was, is) else { panic!("a game without tables") };
        counts.add(&before, was, call, &outcome, is);
        counts.add_sums(board.sums());
        state = new.or(old);
        if calls.len() >= game.length() || counts.total() >= enough {
            return Ok(());
        }
        let now = state.as_ref().expect("a state, as seen above");
        calls.push(game.next(board.tables(), now));
    }
}

/// Whether the tables may hold something else after a call.
fn may_have_changed(call: &Call, outcome: &Outcome) -> bool {
    let looks_only = matches!(call.entry(), Entry::Read | Entry::List | Entry::Image | Entry::Holder | Entry::Sound);
    matches!(call, Call::Damaged { .. }) || !(looks_only || refusal(outcome.answer).is_some())
}

/// The state that the tables have; they are sound after every call. That it writes out the same tables again is a check of the model.
fn read_back(board: &Board) -> Option<State> {
    let tables = board.tables();
    let state = State::from_tables(&tables.words, &tables.slots).expect("tables stay sound");
    let (words, slots) = state.to_tables();
    assert!(words == tables.words && slots == tables.slots, "the model's reading and writing differ");
    Some(state)
}

#[cfg(test)]
mod tests {
    use super::*;
    use crate::call::Change;
    use crate::faulty::{Faulty, Mistake};
    use crate::manager::Tables;
    use crate::sizes::BUFFERS;
    use model::layout::{MOST_CLIENT, NAME_BYTES};

    /// Plays games of a seed until there were enough calls, or the first that fails.
    fn play(first: &dyn Manager, second: &dyn Manager, seed: u64, enough: u64) -> Result<Counts, Failed> {
        let mut counts = Counts::default();
        let mut games = 0;
        while counts.total() < enough {
            play_game(first, second, Rng::game_seed(seed, games), &mut counts, enough)?;
            games += 1;
        }
        Ok(counts)
    }

    #[test]
    fn the_model_and_flat_agree() {
        match play(&Model, &Flat, 77, 30_000) {
            Ok(counts) => assert_eq!(counts.unexpected(), Vec::<String>::new()),
            Err(failed) => panic!("seed {}: {}", failed.seed, failed.difference),
        }
    }

    /// The failure that a mistake leads to, and the calls that are left of it.
    fn found(mistake: Mistake) -> (Failed, Vec<Call>) {
        let faulty = Faulty(mistake);
        let failed = play(&Model, &faulty, 1, 30_000).err().expect("the mistake is found");
        let short = shrink_calls(&Model, &faulty, &failed.calls, 4000);
        assert!(play_list(&Model, &faulty, &short).is_some(), "the shorter list shows a difference too");
        assert!(play_list(&Model, &Flat, &short).is_none(), "and it is the mistake's");
        (failed, short)
    }

    #[test]
    fn a_wrong_count_is_found_and_the_list_shrunk() {
        let (failed, short) = found(Mistake::PurgeCount);
        assert!(matches!(failed.difference, Difference::Answer(..)));
        // Tables, at most two requests, and the purge.
        assert!(short.len() <= 4, "{} calls are left", short.len());
        assert_eq!(short.last().map(Call::entry), Some(Entry::Purge));
    }

    #[test]
    fn a_stray_byte_is_found() {
        let (failed, short) = found(Mistake::SlotByte);
        assert!(matches!(failed.difference, Difference::Slots { second: 1, .. }));
        assert_eq!(short.last().map(Call::entry), Some(Entry::Release));
    }

    #[test]
    fn a_request_that_goes_past_those_that_wait_is_found() {
        let (_, short) = found(Mistake::Overtaking);
        // Tables, at most a holder and one that waits for it, and the request.
        assert!(short.len() <= 4 && short.last().map(Call::entry) == Some(Entry::Request), "{} calls are left", short.len());
    }

    #[test]
    fn mistakes_with_marks_are_found() {
        let (failed, short) = found(Mistake::UntoldMark);
        assert!(matches!(failed.difference, Difference::Answer(..)));
        assert_eq!(short.last().map(Call::entry), Some(Entry::Poll));
        let (failed, short) = found(Mistake::KeptMark);
        assert!(matches!(failed.difference, Difference::Words { first: 0, .. }));
        assert_eq!(short.last().map(Call::entry), Some(Entry::Poll));
    }

    #[test]
    fn wrong_counts_of_a_purge_are_found() {
        for mistake in [Mistake::ConvertingAlone, Mistake::CountedTwice, Mistake::MarkCounted, Mistake::CountsExchanged] {
            let (failed, short) = found(mistake);
            assert!(matches!(failed.difference, Difference::Answer(..)), "{mistake:?}: {}", failed.difference);
            assert_eq!(short.last().map(Call::entry), Some(Entry::Purge), "{mistake:?}");
        }
    }

    #[test]
    fn what_a_blocked_call_is_told_wrongly_is_found() {
        for (mistake, entry) in [(Mistake::SilentSweep, Entry::Release), (Mistake::ToldCancel, Entry::Cancel)] {
            let (failed, short) = found(mistake);
            assert!(matches!(failed.difference, Difference::Words { .. }), "{mistake:?}: {}", failed.difference);
            assert_eq!(short.last().map(Call::entry), Some(entry), "{mistake:?}");
        }
        let (failed, _) = found(Mistake::OthersNotice);
        assert!(matches!(failed.difference, Difference::Answer(..)));
    }

    /// What doesn't add up where both managers make the mistake, and the entry of the last call that is left.
    fn found_by_sums(mistake: Mistake) -> (String, Option<Entry>) {
        let faulty = Faulty(mistake);
        let failed = play(&faulty, &faulty, 2, 30_000).err().expect("the mistake is found");
        let short = shrink_calls(&faulty, &faulty, &failed.calls, 4000);
        let told = play_list(&faulty, &faulty, &short).map(|(_, difference)| difference.to_string());
        assert!(short.len() <= 6, "{mistake:?}: {} calls are left", short.len());
        assert!(play_list(&Flat, &Flat, &short).is_none(), "it is the mistake's");
        (told.expect("the shorter list shows it too"), short.last().map(Call::entry))
    }

    #[test]
    fn the_sums_find_mistakes_of_both_managers() {
        let of_locks = "the answers don't add up: accepted requests";
        let of_calls = "the answers don't add up: answers 2 of request and convert";
        let of_a_client = "the answers don't add up: client";
        for (mistake, sum, entry) in [
            (Mistake::PurgeCount, of_locks, Entry::Purge),
            (Mistake::ConvertingAlone, of_calls, Entry::Purge),
            (Mistake::CountedTwice, of_calls, Entry::Purge),
            (Mistake::MarkCounted, of_calls, Entry::Purge),
            (Mistake::SilentSweep, of_calls, Entry::Release),
            (Mistake::ToldCancel, of_calls, Entry::Cancel),
            (Mistake::OthersNotice, of_a_client, Entry::Poll),
        ] {
            let (told, last) = found_by_sums(mistake);
            assert!(told.starts_with(sum), "{mistake:?}: {told}");
            assert_eq!(last, Some(entry), "{mistake:?}");
        }
    }

    /// The sum has both counts together, so that the model alone shows which is which.
    #[test]
    fn exchanged_counts_add_up() {
        let faulty = Faulty(Mistake::CountsExchanged);
        assert!(play(&faulty, &faulty, 1, 5_000).is_ok());
    }

    #[test]
    fn a_difference_in_soundness_is_found() {
        for mistake in [Mistake::Soundness, Mistake::WrongCounts] {
            let (failed, short) = found(mistake);
            assert!(matches!(failed.difference, Difference::Sound(1, 0) | Difference::Sound(0, 1)), "{mistake:?}: {}", failed.difference);
            assert!(short.len() <= 2, "{mistake:?}: {} calls are left", short.len());
        }
    }

    #[test]
    fn a_conversion_that_is_not_counted_is_found() {
        let (failed, short) = found(Mistake::Uncounted);
        assert!(matches!(failed.difference, Difference::Words { .. }), "{}", failed.difference);
        assert_eq!(short.last().map(Call::entry), Some(Entry::Convert));
    }

    /// Every word of many small states is set to every number that may matter, and every slot byte changed.
    #[test]
    fn every_single_change_is_judged_alike() {
        let mut rng = Rng::new(5);
        let names: Vec<Vec<u8>> = vec![b"a".to_vec(), b"b".to_vec(), b"a\0".to_vec()];
        let mut sound = [0, 0];
        for _ in 0..60 {
            let filling = states::Filling { resources: 2, locks: 5, clients: &[1, 2], names: &names, used: None };
            let (words, slots) = states::random(&mut rng, &filling).to_tables();
            let tables = Tables { words, slots };
            let edges = [NAME_BYTES as u32, NAME_BYTES as u32 + 1, MOST_CLIENT, MOST_CLIENT + 1, u32::MAX];
            let words = (0..tables.words.len()).flat_map(|at| (0..=6).chain(edges).map(move |to| Change::Word(at, to)));
            let bytes = (0..tables.slots.len()).flat_map(|at| [0, b'a', b'b'].map(|to| Change::Byte(at, to)));
            for change in words.chain(bytes) {
                let mut changed = tables.clone();
                call::damage(&mut changed, &[change]);
                let judged = (Model.sound(&changed), Flat.sound(&changed));
                assert_eq!(judged.0, judged.1, "{change:?} of {tables:?}");
                sound[judged.0 as usize] += 1;
            }
        }
        assert!(sound[0] > 50_000 && sound[1] > 5_000, "{sound:?}");
    }

    #[test]
    fn what_never_occurred_is_told() {
        let counts = Counts::default();
        let missing = counts.missing();
        let too_large = format!("load of an image of {} words, accepted", sizes::words(sizes::over(BUFFERS[1])));
        for expected in [
            "poll answering 3",
            "poll: a conversion that was marked and then denied",
            "request refused with 13: behind the wait chain alone",
            "convert refused with 7 where 8 fits as well",
            "the damage \"a convert head kept waiting by its own mode alone\" of tables",
            &too_large,
            "sound: started tables of R 256, L 1024",
            "in the sums of a list from fresh tables: locks purged while blocked",
        ] {
            assert!(missing.iter().any(|what| what == expected), "{expected}");
        }
        assert!(missing.len() > 500, "{} expectations", missing.len());
    }

    #[test]
    fn options_are_read() {
        let options = Options::read(&["--calls", "9", "--trace", "--seed", "4"]).expect("known options");
        assert_eq!((options.calls, options.seed, options.trace), (9, 4, true));
        assert!(Options::read(&["--calls"]).is_none() && Options::read(&["--calls", "x"]).is_none() && Options::read(&["y"]).is_none());
    }
}
