//! What occurred in the games: entries, answers, refusals, damages of tables, images by their sizes, and noteworthy branches. All that is
//! expected must occur, or the comparison has shown less than it claims.

use crate::call::{Call, Changes, Entry, Image};
use crate::damages::{self, DAMAGES};
use crate::events::{Event, events};
use crate::manager::{Tables, refusal};
use crate::marks::Carried;
use crate::play::Outcome;
use crate::refusals::{self, Before, Given, fitting, image_of, sizes_in};
use crate::sizes::{self, BUFFERS, LARGEST};
use crate::sums::{Sums, Term};
use crate::tally::Tally;
use model::layout;
use model::{Flaw, State};
use std::collections::BTreeMap;
use std::fmt;

/// An answer that isn't a refusal, of a kind.
#[derive(Clone, Copy, Debug, PartialEq, Eq, PartialOrd, Ord)]
pub struct Answered(pub Entry, pub &'static str);

impl fmt::Display for Answered {
    fn fmt(&self, f: &mut fmt::Formatter) -> fmt::Result {
        write!(f, "{} answering {}", self.0, self.1)
    }
}

/// The refusal in an answer. Holder has its own way of giving one.
pub fn refusal_of(entry: Entry, answer: u64) -> Option<u32> {
    if entry == Entry::Holder { (answer >= 256).then(|| answer as u32 - 256) } else { refusal(answer) }
}

/// What some entries answered, and what was noteworthy about it.
pub struct CallCounts {
    calls: BTreeMap<Entry, u64>,
    answers: Tally<Answered>,
    refusals: Tally<Given>,
    orders: Tally<Before>,
    events: Tally<Event>,
    carried: Carried,
    strange: Vec<String>,
}

impl CallCounts {
    /// Counters for all that some entries can answer, and for some events. `can` tells which refusals can come at all.
    pub fn new(entries: &[Entry], events: impl IntoIterator<Item = Event>, can: impl Fn(&Given) -> bool) -> CallCounts {
        let answers = entries.iter().flat_map(|entry| entry.answers().iter().map(|answer| Answered(*entry, answer)));
        let given: Vec<Given> = refusals::given(entries).filter(|given| can(given)).collect();
        let comes = |before: &Before| given.iter().any(|given| (given.0, given.1) == (before.0, before.1));
        CallCounts {
            calls: BTreeMap::new(),
            answers: Tally::of(answers),
            orders: Tally::of(refusals::together(entries).filter(comes)),
            refusals: Tally::of(given),
            events: Tally::of(events),
            carried: Carried::default(),
            strange: Vec::new(),
        }
    }

    pub fn total(&self) -> u64 {
        self.calls.values().sum()
    }

    /// Counts a call on tables that have a state, or none if they aren't sound. The first refusal that fits must be the one answered.
    pub fn add(&mut self, call: &Call, tables: &Tables, state: Option<&State>, answer: u64) {
        let entry = call.entry();
        *self.calls.entry(entry).or_default() += 1;
        let fits = fitting(call, tables, state);
        let refused = refusal_of(entry, answer);
        if fits.first().map(|fit| fit.number) != refused {
            self.strange.push(format!("{entry} answering {answer:#x} where these refusals fit: {fits:?}"));
        }
        match &fits[..] {
            [first, later @ ..] => {
                self.refusals.add(Given(entry, first.number, first.why));
                self.orders.add_all(later.iter().map(|fit| Before(entry, first.number, fit.number)));
            }
            [] => self.answers.add(Answered(entry, entry.answer_kind(answer))),
        }
    }

    /// Counts what was noteworthy about a call, as far as it is looked for.
    pub fn add_events(&mut self, before: &State, call: &Call, answer: u64, after: &State) {
        let refused = refusal_of(call.entry(), answer);
        let told = if refused.is_none() { self.carried.play(before, call, answer, after) } else { None };
        let found = events(before, call, answer, refused, after).into_iter().chain(told);
        for event in found {
            if self.events.has(&event) {
                self.events.add(event);
            }
        }
    }

    pub fn add_event(&mut self, event: Event) {
        self.events.add(event);
    }

    /// The tables have become others without a call.
    pub fn forget(&mut self) {
        self.carried = Carried::default();
    }

    pub fn missing(&self) -> Vec<String> {
        let plain = self.answers.missing().chain(self.refusals.missing());
        plain.chain(self.orders.missing()).chain(self.events.missing()).collect()
    }

    /// What must not occur: answers that aren't the first refusal that fits, and refusals that weren't expected.
    pub fn unexpected(&self) -> Vec<String> {
        let known: Vec<Given> = refusals::given(&Entry::ALL).collect();
        let strange = self.refusals.iter().filter(|(given, _)| !known.contains(given));
        self.strange.iter().cloned().chain(strange.map(|(given, count)| format!("{given}, {count} times"))).collect()
    }
}

fn joined<T: fmt::Display>(pairs: impl Iterator<Item = (T, u64)>) -> String {
    pairs.map(|(what, count)| format!("{what}: {count}")).collect::<Vec<_>>().join(", ")
}

impl fmt::Display for CallCounts {
    fn fmt(&self, f: &mut fmt::Formatter) -> fmt::Result {
        writeln!(f, "entries")?;
        for (entry, calls) in &self.calls {
            let answers = self.answers.iter().filter(|(answered, _)| answered.0 == *entry).map(|(answered, count)| (answered.1, count));
            writeln!(f, "  {entry:8} {calls:8} calls; answers {}", joined(answers))?;
            for (number, _) in entry.refusals() {
                let whys = self.refusals.iter().filter(|(given, _)| given.0 == *entry && given.1 == *number);
                writeln!(f, "    refused with {number:2}: {}", joined(whys.map(|(given, count)| (given.2, count))))?;
            }
        }
        writeln!(f, "refusals, with another that fits as well")?;
        for entry in self.calls.keys() {
            let orders = self.orders.iter().filter(|(before, _)| before.0 == *entry);
            let pairs = joined(orders.map(|(before, count)| (format!("{} before {}", before.1, before.2), count)));
            writeln!(f, "  {entry:8} {pairs}")?;
        }
        write!(f, "branches\n{}", self.events.lines())
    }
}

/// How many words an image has, from one number to another. The library decodes them into one of three buffers, so the sizes at the edges of
/// these are told apart.
#[derive(Clone, Copy, Debug, PartialEq, Eq, PartialOrd, Ord)]
struct Size(usize, usize);

impl Size {
    const ALL: [Size; 8] = {
        let [small, above_small] = Size::around(BUFFERS[0]);
        let [middle, above_middle] = Size::around(BUFFERS[1]);
        let most = sizes::words(LARGEST);
        [
            Size(0, small - 1),
            Size(small, small),
            Size(above_small, above_small),
            Size(above_small + 1, middle - 1),
            Size(middle, middle),
            Size(above_middle, above_middle),
            Size(above_middle + 1, most - 1),
            Size(most, most),
        ]
    };

    /// The most words that tables in a buffer have, and the fewest of tables that are too large for it.
    const fn around(room: usize) -> [usize; 2] {
        [sizes::words(sizes::fitting(room)), sizes::words(sizes::over(room))]
    }

    fn of(words: usize) -> Option<Size> {
        Size::ALL.into_iter().find(|size| (size.0..=size.1).contains(&words))
    }
}

/// An image lent to an entry, by its size, and what came of it: a refusal, or none.
#[derive(Clone, Copy, Debug, PartialEq, Eq, PartialOrd, Ord)]
struct Lent(Entry, Size, Option<u32>);

impl Lent {
    fn all() -> impl Iterator<Item = Lent> {
        let outcomes = [(Entry::Load, None), (Entry::Load, Some(1)), (Entry::Load, Some(14))];
        let outcomes = outcomes.into_iter().chain([(Entry::Holder, None), (Entry::Holder, Some(1)), (Entry::Holder, Some(6))]);
        outcomes.flat_map(|(entry, refused)| Size::ALL.map(|size| Lent(entry, size, refused)))
    }
}

impl fmt::Display for Lent {
    fn fmt(&self, f: &mut fmt::Formatter) -> fmt::Result {
        let Lent(entry, Size(least, most), refused) = self;
        let words = if least == most { format!("{least}") } else { format!("{least} to {most}") };
        let outcome = refused.map_or("accepted".to_string(), |number| format!("refused with {number}"));
        write!(f, "{entry} of an image of {words} words, {outcome}")
    }
}

/// A flaw found in damaged tables or in a damaged image.
#[derive(Clone, Copy, Debug, PartialEq, Eq, PartialOrd, Ord)]
struct Found(&'static str, Flaw);

impl fmt::Display for Found {
    fn fmt(&self, f: &mut fmt::Formatter) -> fmt::Result {
        write!(f, "{} with flaw {:?}", self.0, self.1)
    }
}

/// A damage, and what had it: the tables of a call, or an image.
#[derive(Clone, Copy, Debug, PartialEq, Eq, PartialOrd, Ord)]
struct Made(&'static str, Where);

#[derive(Clone, Copy, Debug, PartialEq, Eq, PartialOrd, Ord)]
enum Where {
    Tables,
    Loaded,
    Asked,
}

impl Where {
    const ALL: [Where; 3] = [Where::Tables, Where::Loaded, Where::Asked];

    fn label(self) -> &'static str {
        match self {
            Where::Tables => "tables",
            Where::Loaded => "an image to load",
            Where::Asked => "an image to ask about",
        }
    }
}

impl fmt::Display for Made {
    fn fmt(&self, f: &mut fmt::Formatter) -> fmt::Result {
        write!(f, "the damage \"{}\" of {}", self.0, self.1.label())
    }
}

/// What occurred when managers were compared.
pub struct Counts {
    calls: CallCounts,
    damages: Tally<Made>,
    flaws: Tally<Found>,
    images: Tally<Lent>,
    sums: Tally<Term>,
    broken_promises: Vec<String>,
}

const TABLES: &str = "damaged tables";
const IMAGE: &str = "a damaged image";

impl Default for Counts {
    fn default() -> Counts {
        Counts {
            calls: CallCounts::new(&Entry::ALL, Event::ALL.iter().copied(), |_| true),
            damages: Tally::of(DAMAGES.iter().flat_map(|damage| Where::ALL.map(|had_by| Made(damage.label, had_by)))),
            flaws: Tally::of(Flaw::ALL.iter().flat_map(|flaw| [Found(TABLES, *flaw), Found(IMAGE, *flaw)])),
            images: Tally::of(Lent::all()),
            sums: Tally::of(Term::all()),
            broken_promises: Vec::new(),
        }
    }
}

impl Counts {
    /// How many calls were made.
    pub fn total(&self) -> u64 {
        self.calls.total()
    }

    /// Counts a call that both sides answered alike. `before` is what the tables held, and `after` what they hold.
    pub fn add(&mut self, tables: &Tables, before: &State, call: &Call, outcome: &Outcome, after: &State) {
        if let Call::Damaged { changes, call, .. } = call {
            return self.add_damaged(tables, changes, call, outcome.answer);
        }
        self.calls.add(call, tables, Some(before), outcome.answer);
        let refused = refusal_of(call.entry(), outcome.answer);
        self.calls.add_events(before, call, outcome.answer, after);
        if let Some(image) = image_of(call) {
            self.add_image(tables, image, if call.entry() == Entry::Load { Where::Loaded } else { Where::Asked });
            let bytes = image.bytes(tables);
            let fitting_length = sizes_in(&bytes).filter(|(words, slots)| bytes.len() == layout::image(*words, *slots));
            let size = fitting_length.and_then(|(words, _)| Size::of(words));
            size.into_iter().for_each(|size| self.images.add(Lent(call.entry(), size, refused)));
        }
    }

    /// Counts what the answers come to after a call.
    pub fn add_sums(&mut self, sums: &Sums) {
        self.sums.add_all(sums.terms());
    }

    /// Counts a call on damaged tables.
    fn add_damaged(&mut self, tables: &Tables, changes: &Changes, call: &Call, answer: u64) {
        let mut damaged = tables.clone();
        crate::call::damage(&mut damaged, &changes.list);
        let read = State::read_tables(&damaged.words, &damaged.slots);
        self.calls.forget();
        self.calls.add(call, &damaged, read.as_ref().ok(), answer);
        match &read {
            Err(flaw) => self.flaws.add(Found(TABLES, *flaw)),
            Ok(_) if refusal_of(call.entry(), answer).is_some() => self.calls.add_event(Event::SoundDamageRefused),
            Ok(_) => self.calls.add_event(Event::SoundDamageAccepted),
        }
        self.add_promise(changes, Where::Tables, read.err());
    }

    /// Counts a named damage. It must have led to what its label says.
    fn add_promise(&mut self, changes: &Changes, had_by: Where, found: Option<Flaw>) {
        match damages::promised(changes.label) {
            Some(promised) if promised == found => self.damages.add(Made(changes.label, had_by)),
            Some(promised) => self.broken_promises.push(format!("{changes} is to lead to {promised:?} and led to {found:?}")),
            None => {}
        }
    }

    /// Counts what is wrong with an image whose length is that of its tables; other images are counted as such.
    fn add_image(&mut self, tables: &Tables, image: &Image, had_by: Where) {
        let Image::OfTables { changes, longer_by } = image else {
            return self.calls.add_event(Event::ImageOfRandomState);
        };
        let mut damaged = tables.clone();
        crate::call::damage(&mut damaged, &changes.list);
        let found = State::read_tables(&damaged.words, &damaged.slots).err();
        self.add_promise(changes, had_by, found);
        match found {
            _ if *longer_by != 0 => self.calls.add_event(Event::ImageOfWrongLength),
            Some(flaw) => self.flaws.add(Found(IMAGE, flaw)),
            None => self.calls.add_event(Event::ImageSound),
        }
    }

    /// What was expected and never occurred.
    pub fn missing(&self) -> Vec<String> {
        let tables = self.damages.missing().chain(self.flaws.missing());
        self.calls.missing().into_iter().chain(tables).chain(self.images.missing()).chain(self.sums.missing()).collect()
    }

    /// What must not occur.
    pub fn unexpected(&self) -> Vec<String> {
        self.calls.unexpected().into_iter().chain(self.broken_promises.iter().cloned()).collect()
    }
}

impl fmt::Display for Counts {
    fn fmt(&self, f: &mut fmt::Formatter) -> fmt::Result {
        let flaws_of = |what: &'static str| {
            let found = self.flaws.iter().filter(move |(found, _)| found.0 == what);
            joined(found.map(|(found, count)| (format!("{:?}", found.1), count)))
        };
        write!(f, "{}", self.calls)?;
        writeln!(f, "flaws of damaged tables\n  {}", flaws_of(TABLES))?;
        writeln!(f, "flaws of damaged images\n  {}", flaws_of(IMAGE))?;
        writeln!(f, "damages, {} of them: of tables, of an image to load, of an image to ask about", DAMAGES.len())?;
        for damage in DAMAGES {
            let counts = self.damages.iter().filter(|(made, _)| made.0 == damage.label).map(|(_, count)| format!("{count:8}"));
            writeln!(f, "{}  {}", counts.collect::<String>(), damage.label)?;
        }
        writeln!(f, "images\n{}calls after which a term of a sum was above 0\n{}", self.images.lines(), self.sums.lines())
    }
}
