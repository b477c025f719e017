//! Games: seeded lists of calls, skewed so that queues grow deep, conversions meet, deadlocks close and every refusal comes.

use crate::call::{Call, Changes, Entry, Image};
use crate::damage::Damager;
use crate::damages::DAMAGES;
use crate::manager::Tables;
use crate::rng::Rng;
use crate::sizes::{BUFFERS, LARGEST, MIDDLE, SMALL, SMALLEST, Sizes, fitting, lengths, over};
use crate::states::{Filling, VARIED, alike, random, varied};
use model::layout::{self, MOST_CLIENT, MOST_LOCKS, MOST_RESOURCES, NAME_BYTES, SLOT_BYTES, VALUE_BYTES, WORD_BYTES};
use model::{Lock, Mode, State};

/// What a game's next call may be, with how often it comes. A game multiplies these by numbers of its own.
const ACTIONS: [(Action, usize); 15] = [
    (Action::Request, 30),
    (Action::Convert, 24),
    (Action::Release, 13),
    (Action::Cancel, 6),
    (Action::Purge, 2),
    (Action::Break, 6),
    (Action::Poll, 16),
    (Action::Read, 3),
    (Action::List, 3),
    (Action::Image, 2),
    (Action::Load, 3),
    (Action::Holder, 3),
    (Action::Sound, 1),
    (Action::Start, 1),
    (Action::Damaged, 10),
];

#[derive(Clone, Copy, PartialEq, Eq)]
enum Action {
    Request,
    Convert,
    Release,
    Cancel,
    Purge,
    Break,
    Poll,
    Read,
    List,
    Image,
    Load,
    Holder,
    Sound,
    Start,
    Damaged,
}

/// How often each mode is asked for, in different kinds of games.
const MODES: [[usize; 6]; 6] =
    [[1, 1, 1, 1, 1, 1], [1, 1, 1, 1, 4, 8], [1, 2, 1, 8, 1, 2], [6, 1, 1, 2, 2, 4], [1, 1, 6, 6, 1, 1], [2, 6, 2, 2, 6, 1]];

/// The kinds of sizes: how often, the most resources and locks, and the most calls.
const SIZES: [(usize, Sizes, usize); 5] = [(5, SMALLEST, 60), (43, SMALL, 300), (32, VARIED, 260), (14, MIDDLE, 120), (6, LARGEST, 60)];

/// The sizes of chosen games: the smallest tables, lockplay's, those at the edges of the buffers into which the library decodes an image, some
/// between these, and the largest.
const CHOSEN_SIZES: [Sizes; 9] =
    [SMALLEST, SMALL, fitting(BUFFERS[0]), over(BUFFERS[0]), MIDDLE, fitting(BUFFERS[1]), over(BUFFERS[1]), (200, 500), LARGEST];

/// How the tables of chosen games are at first.
const CHOSEN_FILLS: [Fill; 3] = [Fill::Started, Fill::Half, Fill::Full];

/// Games of smaller seeds than this are chosen ones: those of chosen sizes, then three that make every damage in turn: of the tables, of an
/// image that is loaded, and of an image that holder is asked about; then one in which a single client has all locks of the largest tables; then
/// those in which all locks of the largest tables hold one mode on one name.
pub const CHOSEN: u64 = ALIKE + ALIKE_MODES.len() as u64;
const ALIKE: u64 = ALONE + 1;
const ALONE: u64 = SIZED + 3;
const SIZED: u64 = (CHOSEN_SIZES.len() * CHOSEN_FILLS.len()) as u64;

/// The modes that all locks can hold on one name.
const ALIKE_MODES: [Mode; 4] = [Mode::Nl, Mode::Cr, Mode::Cw, Mode::Pr];

/// How many calls a chosen game has.
const CHOSEN_LENGTH: usize = 150;
const ALIKE_LENGTH: usize = 20;

/// What the tables of a game hold at first.
#[derive(Clone, Copy, PartialEq, Eq)]
enum Fill {
    /// Mostly nothing, or anything.
    Any,
    Started,
    /// Half of the resources are in use.
    Half,
    /// All resources are in use and all locks, as far as there are.
    Full,
    /// All locks hold a mode on one name.
    Alike(Mode),
}

/// How often the actions come in games of other styles than the plain one.
const RING: [usize; 15] = [60, 4, 2, 2, 1, 5, 12, 1, 1, 1, 1, 1, 1, 1, 3];
const PILE: [usize; 15] = [50, 14, 10, 4, 1, 3, 16, 1, 1, 1, 1, 1, 1, 1, 3];
const IMAGES: [usize; 15] = [8, 8, 3, 1, 0, 1, 4, 1, 1, 6, 30, 30, 2, 0, 8];
const PURGES: [usize; 15] = [0, 0, 0, 0, 1, 0, 0, 0, 0, 0, 0, 0, 0, 0, 0];
const TURNS: [usize; 15] = [8, 2, 8, 0, 1, 0, 0, 0, 0, 0, 0, 0, 1, 0, 0];
const LINES: [usize; 15] = [30, 24, 13, 6, 2, 6, 16, 0, 0, 0, 0, 0, 0, 0, 0];

/// What a game is out for.
#[derive(Clone, Copy, PartialEq, Eq)]
enum Style {
    /// A bit of everything.
    Plain,
    /// Clients that hold each other up in rings: exclusive modes, each name once for each client, and few releases.
    Ring,
    /// Deep queues on one or two names, readers behind writers.
    Pile,
    /// Images of tables of a chosen size.
    Images,
    /// Every damage, on a state that has a place for it, and what is done with it.
    Damages(Entry),
}

pub struct Game {
    rng: Rng,
    resources: u32,
    locks: u32,
    clients: Vec<u32>,
    names: Vec<Vec<u8>>,
    modes: [usize; 6],
    actions: Vec<usize>,
    length: usize,
    style: Style,
    fill: Fill,
    /// How many calls were made after the opening.
    made: usize,
    /// In how many of a hundred cases a field of the call being made is out of order.
    wild: usize,
}

impl Game {
    /// The game of a seed.
    pub fn new(seed: u64) -> Game {
        let mut rng = Rng::new(seed);
        if (ALIKE..CHOSEN).contains(&seed) {
            let mode = ALIKE_MODES[(seed - ALIKE) as usize];
            let game = Game::of(rng, LARGEST, Style::Plain, ALIKE_LENGTH);
            let modes = Mode::ALL.map(|other| usize::from(other == mode));
            return Game { fill: Fill::Alike(mode), names: vec![alike_name(0)], modes, actions: TURNS.to_vec(), ..game };
        }
        if seed == ALONE {
            let game = Game::of(rng, LARGEST, Style::Images, 3);
            return Game { fill: Fill::Full, clients: vec![MOST_CLIENT], actions: PURGES.to_vec(), ..game };
        }
        if (SIZED..ALONE).contains(&seed) {
            let entry = [Entry::Sound, Entry::Load, Entry::Holder][(seed - SIZED) as usize];
            return Game::of(rng, VARIED, Style::Damages(entry), DAMAGES.len() + 2);
        }
        if seed < SIZED {
            let (sizes, fill) = (seed as usize / CHOSEN_FILLS.len(), seed as usize % CHOSEN_FILLS.len());
            return Game { fill: CHOSEN_FILLS[fill], ..Game::of(rng, CHOSEN_SIZES[sizes], Style::Images, CHOSEN_LENGTH) };
        }
        let (_, most, most_calls) = SIZES[rng.weighted(&SIZES.map(|(weight, ..)| weight))];
        let sizes = sizes(&mut rng, most);
        let style = [Style::Plain, Style::Ring, Style::Pile][rng.weighted(&[70, 15, 15])];
        let length = rng.between(most_calls / 3, most_calls);
        Game::of(rng, sizes, style, length)
    }

    /// A game of the calls that lockplay has lines for, on tables of its sizes.
    pub fn of_lines(seed: u64) -> Game {
        let mut rng = Rng::new(seed);
        let style = [Style::Plain, Style::Ring, Style::Pile][rng.weighted(&[60, 20, 20])];
        let mut game = Game::of(rng, model::lockplay::SIZES, style, 0);
        game.actions = LINES.iter().map(|often| often * game.rng.between(1, 6)).collect();
        game
    }

    fn of(mut rng: Rng, (resources, locks): Sizes, style: Style, length: usize) -> Game {
        let clients = clients(&mut rng, locks);
        let names = if style == Style::Images { alike_names(resources) } else { names(&mut rng, resources) };
        let modes = match style {
            Style::Plain | Style::Images | Style::Damages(_) => *rng.pick(&MODES),
            Style::Ring => [0, 0, 0, 1, 1, 9],
            Style::Pile => [3, 4, 1, 9, 1, 3],
        };
        let often = match style {
            Style::Plain | Style::Damages(_) => ACTIONS.map(|(_, often)| often),
            Style::Ring => RING,
            Style::Pile => PILE,
            Style::Images => IMAGES,
        };
        let actions = often.iter().map(|often| often * rng.between(1, 6)).collect();
        Game { rng, resources, locks, clients, names, modes, actions, length, style, fill: Fill::Any, made: 0, wild: 0 }
    }

    /// How many calls the game has.
    pub fn length(&self) -> usize {
        self.length
    }

    /// The first call: start, or the load of a random sound state.
    pub fn opening(&mut self) -> Call {
        if let Style::Damages(_) = self.style {
            return load_of(&varied());
        }
        if let Fill::Alike(mode) = self.fill {
            return load_of(&alike(LARGEST, &self.clients, &self.names[0], mode));
        }
        let (resources, locks) = (self.resources, self.locks);
        let start = match self.fill {
            // Large tables are hardly ever filled by calls alone.
            Fill::Any => self.rng.percent(if locks > 64 { 25 } else { 60 }),
            fill => fill == Fill::Started,
        };
        if start {
            return Call::start(resources, locks);
        }
        let used = match self.fill {
            Fill::Half => Some(resources.div_ceil(2)),
            Fill::Full => Some(resources),
            Fill::Any | Fill::Started | Fill::Alike(_) => None,
        };
        self.load_random(resources, locks, used)
    }

    /// A call that lockplay has a line for, on tables that have a state.
    pub fn next_line(&mut self, state: &State) -> Call {
        self.plain(state, false, 18)
    }

    /// A call for tables that have a state. After the opening, the tables are judged.
    pub fn next(&mut self, tables: &Tables, state: &State) -> Call {
        self.made += 1;
        if self.made == 1 {
            return Call::Sound;
        }
        if let Style::Damages(entry) = self.style {
            return self.damage_in_turn(tables, state, entry);
        }
        if self.rng.weighted(&self.actions) == ACTIONS.len() - 1 {
            let changes = Damager { rng: &mut self.rng, tables, state }.changes();
            return self.damaged(changes, state, 60);
        }
        self.plain_or_tables(tables, state)
    }

    /// The damage whose turn it is. What it meets may not be a place for it, so it is tried again.
    fn damage_in_turn(&mut self, tables: &Tables, state: &State, entry: Entry) -> Call {
        let damage = &DAMAGES[self.made - 2];
        let made = (0..100).find_map(|_| Damager { rng: &mut self.rng, tables, state }.named(damage));
        let changes = made.unwrap_or_default();
        let (words, slots) = lengths(state.most_resources, state.most_locks);
        match entry {
            Entry::Load => Call::Load { image: Image::OfTables { changes, longer_by: 0 }, words, slots },
            Entry::Holder => Call::Holder { image: Image::OfTables { changes, longer_by: 0 }, name: b"vip-7".to_vec() },
            _ => self.damaged(changes, state, 0),
        }
    }

    /// A call on damaged tables, often with wrong arguments too. Tables that stay sound are kept in so many of a hundred cases.
    fn damaged(&mut self, changes: Changes, state: &State, stays: usize) -> Call {
        let call = Box::new(self.plain(state, false, 40));
        Call::Damaged { changes, call, stays: self.rng.percent(stays) }
    }

    /// A call without damage before it; load and holder may damage their image.
    fn plain_or_tables(&mut self, tables: &Tables, state: &State) -> Call {
        match self.plain(state, true, 18) {
            Call::Load { image: Image::OfTables { longer_by, .. }, words, slots } if self.rng.percent(50) => {
                let changes = Damager { rng: &mut self.rng, tables, state }.changes();
                Call::Load { image: Image::OfTables { changes, longer_by }, words, slots }
            }
            Call::Holder { image: Image::OfTables { longer_by, .. }, name } if self.rng.percent(30) => {
                let changes = Damager { rng: &mut self.rng, tables, state }.changes();
                Call::Holder { image: Image::OfTables { changes, longer_by }, name }
            }
            call => call,
        }
    }

    /// A call without damage. In so many of a hundred cases its arguments are wild.
    fn plain(&mut self, state: &State, may_replace: bool, wild: usize) -> Call {
        self.wild = if self.rng.percent(wild) { 35 } else { 1 };
        loop {
            let action = self.action(state);
            if let Some(call) = self.make(action, state, may_replace) {
                return call;
            }
        }
    }

    /// An action; requests come more often while few locks are in use.
    fn action(&mut self, state: &State) -> Action {
        let few = state.locks.len() < (state.most_locks as usize / 3).min(12);
        if few && self.rng.percent(45) {
            return Action::Request;
        }
        ACTIONS[self.rng.weighted(&self.actions)].0
    }

    /// A call of a kind; none if that kind can't be here.
    fn make(&mut self, action: Action, state: &State, may_replace: bool) -> Option<Call> {
        let call = match action {
            Action::Request => self.request(state),
            Action::Convert => {
                let (client, lock) = self.lock(state, |lock| lock.state_number() == 1 && lock.completion() == 0);
                let flags = self.flags(&[0, 0, 0, 1, 2, 4, 5, 6], 7);
                Call::Convert { client, lock, mode: self.mode(), flags, value: self.value(flags) }
            }
            Action::Release => {
                let (client, lock) = self.lock(state, |lock| lock.state_number() == 1 && lock.completion() == 0);
                let flags = self.flags(&[0, 0, 1, 2], 3);
                Call::Release { client, lock, flags, value: self.value(flags) }
            }
            Action::Cancel => {
                let (client, lock) = self.lock(state, Lock::blocked);
                Call::Cancel { client, lock }
            }
            Action::Purge => Call::Purge { client: self.client() },
            Action::Break => Call::Break,
            Action::Poll => Call::Poll { client: self.client_with_notice(state) },
            Action::Read => {
                let (client, lock) = self.lock(state, |lock| lock.held().is_some());
                Call::Read { client, lock, room: self.value_room() }
            }
            Action::List => {
                let (client, lock) = self.lock(state, |lock| lock.held().is_some());
                Call::List { client, lock, room: self.list_room(state, lock) }
            }
            Action::Image => Call::Image { room: self.image_room(state) },
            Action::Holder => Call::Holder { image: self.image(), name: self.name() },
            Action::Sound => Call::Sound,
            Action::Load if may_replace => self.load(state),
            Action::Start if may_replace => self.start(),
            Action::Load | Action::Start | Action::Damaged => return None,
        };
        Some(call)
    }

    fn request(&mut self, state: &State) -> Call {
        let (mut client, mut name) = (self.client(), self.name());
        // In a ring, a client asks for what it has no lock on, else it would mostly be in its own way.
        let mut tries = if self.style == Style::Ring { 6 } else { 0 };
        while tries > 0 && has_lock_on(state, client, &name) {
            (client, name) = (self.client(), self.name());
            tries -= 1;
        }
        Call::Request { client, mode: self.mode(), flags: self.flags(&[0, 0, 4], 4), name }
    }

    fn is_wild(&mut self) -> bool {
        self.rng.percent(self.wild)
    }

    fn client(&mut self) -> u32 {
        let wild = [0, MOST_CLIENT + 1, MOST_CLIENT + 2, 1 << 16, u32::MAX];
        if self.is_wild() { *self.rng.pick(&wild) } else { *self.rng.pick(&self.clients) }
    }

    fn client_with_notice(&mut self, state: &State) -> u32 {
        if state.notices.is_empty() || self.rng.percent(25) {
            return self.client();
        }
        let lock = state.notices[self.rng.below(state.notices.len().min(4))];
        u32::from(state.locks[&lock].client)
    }

    fn mode(&mut self) -> u32 {
        if self.is_wild() { *self.rng.pick(&[6, 7, 256, u32::MAX]) } else { self.rng.weighted(&self.modes) as u32 }
    }

    /// Flags among the usual ones, or any.
    fn flags(&mut self, usual: &[u32], allowed: u32) -> u32 {
        match self.is_wild() {
            false => *self.rng.pick(usual),
            true => match self.rng.below(4) {
                0 => 3,
                1 => allowed + 1,
                2 => self.rng.below(9) as u32,
                _ => self.rng.next() as u32,
            },
        }
    }

    /// A value for flags: of the right length if they store it, mostly.
    fn value(&mut self, flags: u32) -> Vec<u8> {
        let right = flags & 1 != 0 && !self.is_wild() && self.rng.percent(90);
        let others = [0, 0, VALUE_BYTES - 1, VALUE_BYTES + 1, VALUE_BYTES, 2 * VALUE_BYTES];
        let length = if right { VALUE_BYTES } else { *self.rng.pick(&others) };
        self.rng.bytes(length)
    }

    /// A name in use in this game, the first ones more often; seldom another, or one of a wrong length.
    fn name(&mut self) -> Vec<u8> {
        if self.is_wild() || self.style == Style::Images && self.rng.percent(12) {
            let length = *self.rng.pick(&[0, NAME_BYTES + 1, NAME_BYTES + 2, 200]);
            return self.rng.bytes(length);
        }
        if self.rng.percent(3) {
            let length = self.rng.between(1, NAME_BYTES);
            return self.rng.bytes(length);
        }
        let hot = match self.style {
            Style::Plain | Style::Images | Style::Damages(_) => 65,
            Style::Ring => 0,
            Style::Pile => 97,
        };
        let reach = if self.rng.percent(hot) { self.names.len().min(2) } else { self.names.len() };
        self.names[self.rng.below(reach)].clone()
    }

    /// A lock and its client: one that fits the call, mostly; else any in use, another's, a free or an impossible one.
    fn lock(&mut self, state: &State, fits: impl Fn(&Lock) -> bool) -> (u32, u32) {
        let client = self.client();
        if self.is_wild() {
            let number = *self.rng.pick(&[0, state.most_locks + 1, MOST_LOCKS + 1, u32::MAX]);
            return (client, number);
        }
        let any = self.rng.percent(18);
        let chosen: Vec<u32> = state.locks.iter().filter(|(_, lock)| any || fits(lock)).map(|(number, _)| *number).collect();
        if chosen.is_empty() || self.rng.percent(2) {
            return (client, self.rng.between(1, state.most_locks as usize) as u32);
        }
        let number = *self.rng.pick(&chosen);
        let owner = u32::from(state.locks[&number].client);
        (if self.is_wild() || self.rng.percent(2) { client } else { owner }, number)
    }

    /// Room for a value: just right mostly, none, too little, or too much.
    fn value_room(&mut self) -> usize {
        *self.rng.pick(&[VALUE_BYTES, VALUE_BYTES, VALUE_BYTES, 0, 5, VALUE_BYTES - 1, VALUE_BYTES + 8])
    }

    /// Room for a list: just right, too little, none, one too many, or plenty.
    fn list_room(&mut self, state: &State, lock: u32) -> usize {
        let resource = state.locks.get(&lock).and_then(Lock::resource);
        let count = resource.map_or(1, |resource| state.resources[&resource].locks().count());
        match self.rng.below(5) {
            0 => 0,
            1 => count + 1,
            2 => self.rng.below(count + 1),
            3 => count + 4,
            _ => count,
        }
    }

    fn image_room(&mut self, state: &State) -> usize {
        let (words, slots) = lengths(state.most_resources, state.most_locks);
        let right = layout::image(words, slots);
        if self.rng.percent(80) { right } else { *self.rng.pick(&[0, right - 1, right + 1, right + WORD_BYTES, words]) }
    }

    /// The image of the tables, mostly of the right length, or of a random state.
    fn image(&mut self) -> Image {
        if self.rng.percent(12) {
            let Call::Load { image, .. } = self.load_random(self.resources, self.locks, None) else { unreachable!("a load") };
            return image;
        }
        let (slot, word) = (SLOT_BYTES as isize, WORD_BYTES as isize);
        let longer_by = if self.rng.percent(88) { 0 } else { *self.rng.pick(&[-1, 1, -slot, slot, -word, word, -100_000]) };
        Image::OfTables { changes: Changes::default(), longer_by }
    }

    /// A load of the tables' image, or of a random state; seldom into tables of wrong lengths.
    fn load(&mut self, state: &State) -> Call {
        if self.rng.percent(15) {
            let (resources, locks) = sizes(&mut self.rng, (self.resources, self.locks));
            return self.load_random(resources, locks, None);
        }
        let (words, slots) = lengths(state.most_resources, state.most_locks);
        let (words, slots) = match self.rng.below(8) {
            0 => (words + 1, slots),
            1 => (words - 1, slots),
            2 => (words, slots + SLOT_BYTES),
            3 => (0, 0),
            _ => (words, slots),
        };
        Call::Load { image: self.image(), words, slots }
    }

    fn load_random(&mut self, resources: u32, locks: u32, used: Option<u32>) -> Call {
        let filling = Filling { resources, locks, clients: &self.clients, names: &self.names, used };
        load_of(&random(&mut self.rng, &filling))
    }

    /// A start with something wrong, mostly.
    fn start(&mut self) -> Call {
        let (resources, locks) = (self.resources, self.locks);
        let (words, slots) = lengths(resources, locks);
        match self.rng.below(12) {
            0 => Call::start(resources, locks),
            1 => Call::start(0, locks),
            2 => Call::start(resources, 0),
            3 => Call::start(MOST_RESOURCES + 1, locks),
            4 => Call::start(resources, MOST_LOCKS + 1),
            5 => Call::Start { resources, locks, words: words + 1, slots },
            6 => Call::Start { resources, locks, words: words - 1, slots },
            7 => Call::Start { resources, locks, words, slots: slots - 1 },
            8 => Call::Start { resources, locks, words, slots: slots + SLOT_BYTES },
            9 => Call::Start { resources: u32::MAX, locks: u32::MAX, words, slots },
            10 => Call::Start { resources, locks, words: 0, slots: 0 },
            _ => Call::Start { resources: resources + 9, locks, words, slots },
        }
    }
}

/// The load of a state's image.
fn load_of(state: &State) -> Call {
    let (words, slots) = state.to_tables();
    let lengths = (words.len(), slots.len());
    let bytes = Tables { words, slots }.bytes();
    Call::Load { image: Image::Bytes(bytes.into()), words: lengths.0, slots: lengths.1 }
}

/// Whether a client has a lock on a name.
fn has_lock_on(state: &State, client: u32, name: &[u8]) -> bool {
    let resource = state.named(name).map(|number| &state.resources[&number]);
    resource.is_some_and(|resource| resource.locks().any(|lock| u32::from(state.locks[&lock].client) == client))
}

/// Sizes up to the most of a kind, the most itself often.
fn sizes(rng: &mut Rng, most: Sizes) -> Sizes {
    if rng.percent(30) {
        return most;
    }
    (rng.between(1, most.0 as usize) as u32, rng.between(1, most.1 as usize) as u32)
}

/// Few clients, so that they meet.
fn clients(rng: &mut Rng, locks: u32) -> Vec<u32> {
    let count = rng.between(1, if locks > 64 { 30 } else { 5 });
    let mut clients: Vec<u32> = (0..count).map(|_| rng.between(1, MOST_CLIENT as usize) as u32).collect();
    if rng.percent(30) {
        clients.push(MOST_CLIENT);
        clients.push(1);
    }
    clients
}

/// Names: often more than there are resources; with long common beginnings, or such that one begins another, or with zero bytes at the end.
fn names(rng: &mut Rng, resources: u32) -> Vec<Vec<u8>> {
    let r = resources as usize;
    let count = *rng.pick(&[1, 2, r.div_ceil(2), r, r + 2, r + 2]);
    let style = rng.below(5);
    let mut names: Vec<Vec<u8>> = (0..count).map(|at| name_of_style(rng, style, at)).collect();
    names.sort();
    names.dedup();
    rng.shuffle(&mut names);
    names
}

/// Names of the most bytes, of which the last four differ.
fn alike_names(resources: u32) -> Vec<Vec<u8>> {
    (0..resources as usize).map(alike_name).collect()
}

fn alike_name(at: usize) -> Vec<u8> {
    format!("{}{at:04}", "x".repeat(NAME_BYTES - 4)).into_bytes()
}

/// Names of which eight differ in the case of their letters alone.
fn by_case(at: usize) -> Vec<u8> {
    let letters = b"vip".iter().enumerate().map(|(bit, letter)| if at >> bit & 1 == 1 { letter.to_ascii_uppercase() } else { *letter });
    letters.chain(format!("-{}", at / 8).into_bytes()).collect()
}

fn name_of_style(rng: &mut Rng, style: usize, at: usize) -> Vec<u8> {
    match style {
        0 => alike_name(at),
        1 => [vec![b'a'; 1 + at / 2 % 32], format!("{}", at / 64).into_bytes(), vec![0; at % 2]].concat(),
        2 => vec![0; 1 + at % NAME_BYTES],
        3 => by_case(at),
        _ => {
            let length = rng.between(2, NAME_BYTES);
            rng.bytes(length)
        }
    }
}
