//! Noteworthy branches: what a call met and did, told from the states before and after it.

use crate::call::{Call, Image};
use crate::held::note_held;
use crate::manager::{lock, result};
use crate::marks::note_marks;
use crate::purges::note_purge;
use crate::sizes::{LARGEST, MIDDLE, SMALL, SMALLEST, Sizes};
use crate::waiters::{behind_waiters, note_waiters};
use model::layout::{MOST_CLIENT, NAME_BYTES, VALUE_BYTES};
use model::{Lock, Mode, Resource, Standing, State, Unread};
use std::collections::{BTreeSet, VecDeque};
use std::fmt;

macro_rules! events {
    ($($name:ident = $label:literal,)*) => {
        /// Something that must occur at least once.
        #[derive(Clone, Copy, Debug, PartialEq, Eq, PartialOrd, Ord)]
        pub enum Event { $($name,)* }

        impl Event {
            pub const ALL: &'static [Event] = &[$(Event::$name,)*];

            pub fn label(self) -> &'static str {
                match self { $(Event::$name => $label,)* }
            }

            /// Whether it is about one of the seven calls that change the tables.
            pub fn of_call(self) -> bool {
                let calls = ["request", "convert", "release", "cancel", "purge", "break", "poll"];
                calls.iter().any(|call| self.label().starts_with(call))
            }
        }
    };
}

impl fmt::Display for Event {
    fn fmt(&self, f: &mut fmt::Formatter) -> fmt::Result {
        f.write_str(self.label())
    }
}

events! {
    SmallestTables = "start with R 1, L 1",
    LargestTables = "a call on tables of R 256, L 1024",
    LargestTablesFull = "a call on tables of R 256, L 1024 with no free lock",
    NewName = "request: new name takes a resource",
    NewNameByCase = "request: a new name that differs from one in use in the case of letters alone",
    NewNameLonger = "request: a new name that begins with one in use",
    GrantedBeside = "request: granted beside other holders",
    NlPastWaiters = "request: NL granted past a wait chain",
    NlPastWaitersDontQueue = "request: NL with flag 4 granted past a wait chain",
    NlBesideEx = "request: NL granted beside EX",
    GrantedBesideNl = "request: granted where NL alone is held",
    GrantedBesideCr = "request: granted where CR alone is held",
    GrantedBesideCw = "request: granted where CW alone is held",
    GrantedBesidePr = "request: granted where PR alone is held",
    GrantedBesidePw = "request: granted where PW alone is held",
    GrantedBesideEx = "request: granted where EX alone is held",
    RequestCountsAll = "request: all locks hold one mode on one name",
    RequestCountsMost = "request: 1,024 locks hold one mode on one name",
    WaitsIncompatible = "request: waits for a held mode",
    WaitsForCr = "request: waits for CR alone",
    WaitsForCw = "request: waits for CW alone",
    WaitsForPr = "request: waits for PR alone",
    WaitsForPw = "request: waits for PW alone",
    WaitsForEx = "request: waits for EX alone",
    WaitsForConversion = "request: compatible, waits behind a conversion",
    WaitsForWaiters = "request: waits because of the wait chain alone",
    NlWaitsForConversion = "request: NL joins a wait chain behind a conversion",
    DontQueueGranted = "request: flag 4 and granted",
    KnownNameNoResource = "request: accepted on a known name where no resource is free",
    LongestName = "request: name of 64 bytes",
    NameEndsInZero = "request: name that ends in a zero byte",
    DeepWaitQueue = "request: eighth or later in a wait queue",
    RequestSetsMark = "request: sets a mark",
    RequestRaisesMark = "request: raises a mark",
    RequestRaisesInPlace = "request: raises a mark whose notice stands before others",
    RequestLeavesEqual = "request: leaves an equal mark",
    RequestLeavesLarger = "request: leaves a larger mark",
    RequestSetsConverting = "request: sets a mark on a converting lock",
    RequestRaisesConverting = "request: raises the mark of a converting lock",
    RequestLeavesConverting = "request: leaves the mark of a converting lock",
    RequestMarksUnread = "request: marks a lock with a completion unread",
    RequestMarksOwn = "request: marks another lock of its client",
    RequestMarksPrCw = "request: CW marks PR, or PR marks CW",
    RequestMarksSeveral = "request: marks two locks or more",
    RequestMarksBoth = "request: marked locks of both chains join the notices",
    RequestMarksBehind = "request: marked locks join behind other notices",
    RequestMarksSome = "request: marks some holders and spares others",
    RequestMarksNobody = "request: waits and marks nobody",
    ConvertSame = "convert: to the same mode",
    ConvertDownPastQueue = "convert: down in place past a convert queue",
    ConvertDownSweeps = "convert: down, the sweep grants",
    ConvertDownSweepsMany = "convert: down, the sweep grants three or more",
    ConvertDownSweepsBoth = "convert: down, the sweep grants from both queues",
    ConvertUpInPlace = "convert: not down, in place",
    ConvertUpPastWaiters = "convert: not down, in place past a wait chain",
    ConvertUpSweeps = "convert: not down, in place, the sweep grants",
    ConvertPrCwInPlace = "convert: PR to CW or back in place",
    ConvertPrCwQueued = "convert: PR to CW or back queued",
    ConvertOwnMode = "convert: its own held mode, incompatible, doesn't hold it up",
    ConvertBesideAlike = "convert: not down, in place beside another lock of its mode",
    ConvertDownAlike = "convert: down beside another lock of its mode",
    ConvertDownLastOfMode = "convert: down from a mode that no other lock holds, where others hold",
    ConvertQueuedIncompatible = "convert: queued for a held mode",
    ConvertWaitsForAlike = "convert: queued for other locks of its own mode alone",
    ConvertQueuedBehind = "convert: compatible, queued behind a conversion",
    ConvertDeepQueue = "convert: fourth or later in a convert queue",
    ConvertDontQueueGranted = "convert: flag 4 and granted",
    ConvertStores = "convert: flag 1 stores the value",
    ConvertStoresValid = "convert: flag 1 makes a value valid again",
    ConvertInvalidates = "convert: flag 2 makes the value not valid",
    ConvertFlagLowMode = "convert: flag 1 or 2 ignored from below PW",
    ConvertFlagNotSmaller = "convert: flag 1 or 2 ignored from PW or EX, not to a smaller mode",
    ConvertFlagQueued = "convert: flag 1 or 2 ignored where it is queued",
    ConvertSetsMark = "convert: sets a mark",
    ConvertRaisesMark = "convert: raises a mark",
    ConvertRaisesInPlace = "convert: raises a mark whose notice stands before others",
    ConvertLeavesEqual = "convert: leaves an equal mark",
    ConvertLeavesLarger = "convert: leaves a larger mark",
    ConvertSetsConverting = "convert: sets a mark on a converting lock",
    ConvertRaisesConverting = "convert: raises the mark of a converting lock",
    ConvertLeavesConverting = "convert: leaves the mark of a converting lock",
    ConvertMarksUnread = "convert: marks a lock with a completion unread",
    ConvertMarksOwn = "convert: marks another lock of its client",
    ConvertMarksPrCw = "convert: CW marks PR, or PR marks CW",
    ConvertMarksSeveral = "convert: marks two locks or more",
    ConvertMarksBoth = "convert: marked locks of both chains join the notices",
    ConvertMarksBehind = "convert: marked locks join behind other notices",
    ConvertMarksSome = "convert: marks some holders and spares others",
    ConvertMarksNobody = "convert: waits and marks nobody",
    ConvertMarkedDown = "convert: a marked lock, down",
    ConvertMarkedUp = "convert: a marked lock, not down, in place",
    ConvertMarkedQueued = "convert: a marked lock is queued",
    SweepGrantsMarked = "convert, release, cancel, purge, break: the sweep grants a marked conversion",
    SweepGrantsMarkedInPlace = "convert, release, cancel, purge, break: the sweep grants a marked conversion whose notice stands before others",
    SweepGrantsOwnMode = "convert, release, cancel, purge, break: the sweep grants a conversion to a mode that excludes the one it held",
    SweepGrantsBesideAlike = "convert, release, cancel, purge, break: the sweep grants a conversion beside another lock of the mode it held",
    SweepStopsAtAlike = "convert, release, cancel, purge, break: a convert head waits on for locks of its own mode alone",
    SweepGrantsBehind = "convert, release, cancel, purge, break: the sweep grants a request that the wait chain alone held up, after the one ahead",
    SweepStopsBehind = "convert, release, cancel, purge, break: the sweep grants and stops at a request that the wait chain alone held up",
    ReleaseFreesResource = "release: frees the resource",
    ReleaseFirst = "release: first of several granted",
    ReleaseMiddle = "release: between others granted",
    ReleaseLast = "release: last of several granted",
    ReleaseAlike = "release: a lock beside another of its mode",
    ReleaseLastOfMode = "release: the last lock of its mode, where others hold",
    ReleaseSweeps = "release: the sweep grants",
    ReleaseSweepsMany = "release: the sweep grants three or more",
    ReleaseSweepsBoth = "release: the sweep grants from both queues",
    ReleaseSweepStops = "release: the sweep grants and stops at a head",
    ReleaseMovesNothing = "release: blocked locks stay blocked",
    ReleaseStores = "release: flag 1 stores the value",
    ReleaseStoresEmptied = "release: flag 1 where the resource is freed",
    ReleaseInvalidates = "release: flag 2 makes the value not valid",
    ReleaseInvalidatesEmptied = "release: flag 2 where the resource is freed",
    ReleaseFlagLowMode = "release: flag 1 or 2 ignored from below PW",
    ReleaseMarked = "release: a marked lock",
    ReleaseMarkedBetween = "release: a marked lock whose notice stands between others",
    ValueWhereIgnored = "convert, release: 7 where flag 1 would be ignored",
    CancelConvertHead = "cancel: the convert head",
    CancelConvertBehind = "cancel: a conversion behind others",
    CancelConvertSweeps = "cancel: a conversion, the sweep grants",
    CancelWaitHead = "cancel: the wait head",
    CancelWaitBehind = "cancel: a request behind others",
    CancelWaitSweeps = "cancel: a request, the sweep grants",
    CancelMarked = "cancel: a marked conversion",
    CancelMarkStays = "cancel: a mark stays where nobody waits any more",
    PurgeMany = "purge: five or more locks",
    PurgeAlike = "purge: two locks of one mode on one resource",
    PurgeBesideAlike = "purge: a lock beside another client's of its mode",
    PurgeConverting = "purge: a converting lock",
    PurgeWaiting = "purge: a waiting lock",
    PurgeBothQueues = "purge: converting and waiting locks",
    PurgeBlockedOnOne = "purge: two blocked locks on one resource",
    PurgeManyBlocked = "purge: more than 255 blocked locks",
    PurgeHeldUp = "purge: a blocked lock that its client alone holds up",
    PurgeGranted = "purge: a lock with completion 1 unread",
    PurgeDenied = "purge: a lock with completion 2 unread",
    PurgeConversionDenied = "purge: a lock with completion 3 unread",
    PurgeEveryCompletion = "purge: completions 1, 2 and 3 unread",
    PurgeUnreadAlike = "purge: two locks with the same completion unread",
    PurgeManyUnread = "purge: more than 255 completions unread",
    PurgeBlockedAndUnread = "purge: blocked locks and completions unread",
    PurgeBlockedAlone = "purge: blocked locks and no completion unread",
    PurgeUnreadAlone = "purge: completions unread and no blocked lock",
    PurgeNeither = "purge: locks, none of them blocked or with a completion unread",
    PurgeMarkAlone = "purge: a mark alone, and no completion unread",
    PurgeMarkBeside = "purge: a mark alone, beside a completion unread",
    PurgeNone = "purge: no lock, where others are blocked and have completions unread",
    PurgeOthersToo = "purge: blocked locks and completions unread, where others have both too",
    PurgeInvalidates = "purge: a value becomes not valid",
    PurgeReaderKeepsValid = "purge: a value stays valid after a holder below PW",
    PurgeFreesResources = "purge: frees two or more resources",
    PurgeSweeps = "purge: a sweep grants",
    PurgeSweepsTwo = "purge: sweeps grant on two or more resources",
    PurgeMarked = "purge: a marked granted lock",
    PurgeMarkedConverting = "purge: a marked converting lock",
    PurgeMarkedUnread = "purge: a marked lock with a completion unread",
    PurgeMarkStays = "purge: a mark stays where nobody waits any more",
    BreakNoneBlocked = "break: no lock is blocked",
    BreakNoDeadlock = "break: locks are blocked, no deadlock",
    BreakRequest = "break: denies a request",
    BreakConversion = "break: denies a conversion",
    BreakSelf = "break: a lock leads to itself at once",
    BreakInTwo = "break: a cycle of two steps",
    BreakInMore = "break: a cycle of three or more steps",
    BreakTwoResources = "break: a cycle over two resources",
    BreakMoreResources = "break: a cycle over three or more resources",
    BreakConversionsOnly = "break: a cycle of conversions on one resource",
    BreakBehindWaiters = "break: a cycle through a request that the wait chain alone held up",
    BreakNotFirst = "break: an earlier blocked lock isn't on a cycle",
    BreakBehindCycle = "break: an earlier blocked lock leads to the cycle and isn't on it",
    BreakBetween = "break: an earlier blocked lock leads to the cycle and a lock on a cycle leads to it",
    BreakSmall = "break: denies a lock of up to 32 in the tables",
    BreakMiddle = "break: denies a lock of 33 to 256 in the tables",
    BreakLarge = "break: denies a lock of more than 256 in the tables",
    BreakLooksFurther = "break: no deadlock, and the client of a blocked lock holds more than NL where a lock is blocked",
    BreakOnOneList = "break: two clients that have blocked locks differ by 128",
    BreakSweeps = "break: the sweep grants",
    BreakAgain = "break: a deadlock remains",
    BreakMarked = "break: denies a marked conversion",
    BreakMarkedInPlace = "break: denies a marked conversion whose notice stands before others",
    PollOthers = "poll: only others have notices",
    PollNotFirst = "poll: a notice behind others'",
    PollFirstOfTwo = "poll: the first of a client's notices",
    PollFreesBetween = "poll: a denied lock between other denied ones",
    PollMarkGranted = "poll: a mark alone, of a granted lock",
    PollMarkConverting = "poll: a mark alone, of a converting lock",
    PollMarkOutlasting = "poll: a mark alone where nobody waits any more",
    PollMarkWithGrant = "poll: a mark with completion 1",
    PollMarkWithDenial = "poll: a mark with completion 3",
    PollMarkedThenGranted = "poll: a conversion that was marked and then granted",
    PollMarkedThenDenied = "poll: a conversion that was marked and then denied",
    ReadNotValid = "read: not valid",
    ReadStored = "read: a stored value",
    ReadConverting = "read: by a converting lock",
    ReadUnread = "read: by a lock with a completion unread",
    ReadLittleRoom = "read: less than 32 bytes of room",
    ReadMarked = "read: by a marked lock",
    ListCutShort = "list: more locks than fit",
    ListNoRoom = "list: no room",
    ListRoomLeft = "list: room left over",
    ListAllQueues = "list: locks in all three queues",
    ListMarked = "list: a marked lock",
    LoadOtherSizes = "load: accepted with other sizes",
    HolderConverting = "holder: a converting lock holds EX",
    HolderNobody = "holder: known name, nobody holds EX",
    HolderUnknown = "holder: unknown name",
    SoundStartedSmallest = "sound: started tables of R 1, L 1",
    SoundStartedSmall = "sound: started tables of R 4, L 8",
    SoundStartedLargest = "sound: started tables of R 256, L 1024",
    SoundHalf = "sound: R 64, L 256 with half of the resources in use",
    SoundFull = "sound: R 64, L 256 with all resources in use",
    SoundLargestHalf = "sound: R 256, L 1024 with half of the resources in use",
    SoundLargestFull = "sound: R 256, L 1024 with all resources and all locks in use",
    SoundEveryState = "sound: locks of every state, resources free and in use",
    SoundEveryCompletion = "sound: notices with completions 1, 2 and 3",
    SoundEveryHeld = "sound: every mode held, by granted and by converting locks",
    SoundAllNl = "sound: 1,024 locks hold NL on one name",
    SoundAllCr = "sound: 1,024 locks hold CR on one name",
    SoundAllCw = "sound: 1,024 locks hold CW on one name",
    SoundAllPr = "sound: 1,024 locks hold PR on one name",
    SoundEveryMark = "sound: every mark, of granted and of converting locks",
    SoundMarkUnread = "sound: a mark beside completion 1, and one beside 3",
    SoundLongestName = "sound: a name of 64 bytes",
    SoundZeroName = "sound: a name, and the same with a zero byte behind it",
    SoundNamesByCase = "sound: two names that differ in the case of letters alone",
    SoundNamesAlike = "sound: 128 names of one length whose first 47 bytes are alike",
    SoundAsksForLess = "sound: a conversion that asks for less than it holds",
    SoundAsksForSame = "sound: a conversion that asks for what it holds",
    SoundClient255 = "sound: a lock of client 255",
    SoundNotValid = "sound: a resource that isn't valid",
    SoundNotices = "sound: notices in another order than their locks",
    SoundBlocked = "sound: blocked locks in another order than on their resource",
    SoundFreeChains = "sound: free resources and free locks in another order than upward",
    ImageSound = "an image of sound tables",
    ImageOfRandomState = "an image of a random sound state",
    ImageOfWrongLength = "an image of a wrong length",
    SoundDamageAccepted = "damaged tables still sound, call accepted",
    SoundDamageRefused = "damaged tables still sound, call refused",
}

/// What was noteworthy about a call.
pub fn events(before: &State, call: &Call, answer: u64, refused: Option<u32>, after: &State) -> Vec<Event> {
    let mut found = Vec::new();
    let notes = Notes { before, after, result: result(answer), lock: lock(answer) };
    match (call, refused) {
        (Call::Convert { client, lock, .. } | Call::Release { client, lock, .. }, Some(7)) => notes.value(*client, *lock, &mut found),
        (_, Some(_)) => {}
        (Call::Start { resources, locks, .. }, None) => note(&mut found, (*resources, *locks) == SMALLEST, Event::SmallestTables),
        (Call::Request { mode, flags, name, .. }, None) => notes.request(*mode, *flags, name, &mut found),
        (Call::Convert { lock, mode, flags, .. }, None) => notes.convert(*lock, *mode, *flags, &mut found),
        (Call::Release { lock, flags, .. }, None) => notes.release(*lock, *flags, &mut found),
        (Call::Cancel { lock, .. }, None) => notes.cancel(*lock, &mut found),
        (Call::Purge { client }, None) => notes.purge(*client, &mut found),
        (Call::Break, None) => notes.break_deadlock(&mut found),
        (Call::Poll { .. }, None) => notes.poll(&mut found),
        (Call::Read { lock, room, .. }, None) => notes.read(*lock, *room, &mut found),
        (Call::List { lock, room, .. }, None) => notes.list(*lock, *room, &mut found),
        (Call::Load { .. }, None) if before.most_locks != after.most_locks => found.push(Event::LoadOtherSizes),
        (Call::Holder { image: Image::OfTables { changes, .. }, name }, None) if changes.list.is_empty() => notes.holder(name, &mut found),
        (Call::Sound, None) => sound(before, &mut found),
        _ => {}
    }
    if refused.is_none() {
        note_held(before, call, answer, after, &mut found);
        note_marks(before, call, answer, after, &mut found);
        note_purge(before, call, &mut found);
        note_waiters(before, call, answer, after, &mut found);
    }
    if sizes_of(before) == LARGEST {
        found.push(Event::LargestTables);
        found.extend(before.free_locks.is_empty().then_some(Event::LargestTablesFull));
    }
    found
}

pub fn sizes_of(state: &State) -> Sizes {
    (state.most_resources, state.most_locks)
}

/// What is noteworthy about tables that were found sound.
fn sound(state: &State, found: &mut Vec<Event>) {
    let is = |sizes: Sizes| sizes_of(state) == sizes;
    let idle = state.locks.is_empty() && upward(&state.free_resources) && upward(&state.free_locks);
    note(found, idle && is(SMALLEST), Event::SoundStartedSmallest);
    note(found, idle && is(SMALL), Event::SoundStartedSmall);
    note(found, idle && is(LARGEST), Event::SoundStartedLargest);
    let half = state.resources.len() as u32 == state.most_resources / 2;
    let full = state.free_resources.is_empty();
    note(found, is(MIDDLE) && half, Event::SoundHalf);
    note(found, is(MIDDLE) && full, Event::SoundFull);
    note(found, is(LARGEST) && half, Event::SoundLargestHalf);
    note(found, is(LARGEST) && full && state.free_locks.is_empty(), Event::SoundLargestFull);
    note(found, !upward(&state.free_resources) && !upward(&state.free_locks), Event::SoundFreeChains);
    note(found, state.resources.values().any(|resource| !resource.valid), Event::SoundNotValid);
    sound_locks(state, found);
    sound_names(state, found);
}

fn upward(chain: &VecDeque<u32>) -> bool {
    chain.iter().is_sorted()
}

fn sound_locks(state: &State, found: &mut Vec<Event>) {
    let has = |number: u32| state.locks.values().any(|lock| lock.state_number() == number);
    let free = !state.free_locks.is_empty() && !state.free_resources.is_empty();
    note(found, free && (1..=4).all(has), Event::SoundEveryState);
    let unread = |number: u32| state.locks.values().any(|lock| lock.completion() == number);
    note(found, (1..=3).all(unread), Event::SoundEveryCompletion);
    let asks = |down: fn(Mode, Mode) -> bool| {
        state.locks.values().any(|lock| lock.held().zip(lock.asked()).is_some_and(|(held, asked)| down(held, asked)))
    };
    note(found, asks(|held, asked| held != asked && held.down_to(asked)), Event::SoundAsksForLess);
    note(found, asks(|held, asked| held == asked), Event::SoundAsksForSame);
    note(found, state.locks.values().any(|lock| u32::from(lock.client) == MOST_CLIENT), Event::SoundClient255);
    note(found, !upward(&state.notices), Event::SoundNotices);
    let place = |lock: &u32| state.blocked.iter().position(|other| other == lock);
    let otherwise = |queue: &VecDeque<u32>| !queue.iter().map(place).is_sorted();
    let resources = state.resources.values();
    note(found, resources.clone().any(|queues| otherwise(&queues.converting) || otherwise(&queues.waiting)), Event::SoundBlocked);
}

fn sound_names(state: &State, found: &mut Vec<Event>) {
    let names: BTreeSet<&[u8]> = state.resources.values().map(|resource| &resource.name[..]).collect();
    let lower: BTreeSet<Vec<u8>> = names.iter().map(|name| name.to_ascii_lowercase()).collect();
    note(found, names.iter().any(|name| name.len() == NAME_BYTES), Event::SoundLongestName);
    let shorter = |name: &[u8]| name.strip_suffix(&[0]).is_some_and(|shorter| names.contains(shorter));
    note(found, names.iter().any(|name| shorter(name)), Event::SoundZeroName);
    note(found, lower.len() < names.len(), Event::SoundNamesByCase);
    let alike = names.first().and_then(|first| first.get(..47)).map_or(0, |start| {
        let length = names.first().map(|first| first.len());
        names.iter().filter(|name| name.starts_with(start) && Some(name.len()) == length).count()
    });
    note(found, alike >= 128, Event::SoundNamesAlike);
}

struct Notes<'a> {
    before: &'a State,
    after: &'a State,
    result: u32,
    lock: u32,
}

/// Adds an event if something is so.
pub fn note(found: &mut Vec<Event>, so: bool, event: Event) {
    if so {
        found.push(event);
    }
}

impl Notes<'_> {
    fn was(&self, lock: u32) -> &Lock {
        &self.before.locks[&lock]
    }

    /// The resource that a lock stood on before the call.
    fn queues(&self, lock: u32) -> (u32, &Resource) {
        let number = self.was(lock).resource().expect("not a denied lock");
        (number, &self.before.resources[&number])
    }

    /// The locks that sweeps granted.
    fn swept(&self) -> Vec<u32> {
        let granted = |lock: &Lock| matches!(lock.standing, Standing::Granted { unread: Some(Unread::Granted), .. });
        let now = |lock: &u32| self.after.locks.get(lock).is_some_and(granted);
        self.before.blocked.iter().copied().filter(now).collect()
    }

    /// Notes that a sweep granted, granted three or more, or from both queues.
    fn sweep(&self, found: &mut Vec<Event>, [some, many, both]: [Event; 3]) {
        let swept = self.swept();
        let converting = swept.iter().filter(|lock| self.was(**lock).held().is_some()).count();
        note(found, !swept.is_empty(), some);
        note(found, swept.len() >= 3, many);
        note(found, converting > 0 && converting < swept.len(), both);
    }

    /// A value of a wrong length, where the flag that stores it would be ignored.
    fn value(&self, client: u32, lock: u32, found: &mut Vec<Event>) {
        let own = self.before.locks.get(&lock).filter(|lock| u32::from(lock.client) == client);
        note(found, own.and_then(Lock::held).is_some_and(|held| !held.writes_value()), Event::ValueWhereIgnored);
    }

    fn request(&self, mode: u32, flags: u32, name: &[u8], found: &mut Vec<Event>) {
        note(found, name.len() == NAME_BYTES, Event::LongestName);
        note(found, name.last() == Some(&0), Event::NameEndsInZero);
        let granted = self.result == 1;
        note(found, granted && flags == 4, Event::DontQueueGranted);
        let Some(resource) = self.before.named(name) else {
            let mut used = self.before.resources.values().map(|resource| &resource.name);
            note(found, used.clone().any(|other| other.eq_ignore_ascii_case(name)), Event::NewNameByCase);
            note(found, used.any(|other| name.starts_with(other)), Event::NewNameLonger);
            return found.push(Event::NewName);
        };
        let queues = &self.before.resources[&resource];
        let fits = Mode::from_number(mode).is_some_and(|mode| self.before.fits(resource, mode, 0));
        let ex_held = !self.before.fits(resource, Mode::Cr, 0);
        note(found, self.before.free_resources.is_empty(), Event::KnownNameNoResource);
        note(found, granted, Event::GrantedBeside);
        note(found, granted && mode == 0 && ex_held, Event::NlBesideEx);
        note(found, !granted && !fits, Event::WaitsIncompatible);
        note(found, !granted && fits && !queues.converting.is_empty(), Event::WaitsForConversion);
        note(found, !granted && queues.waiting.len() >= 7, Event::DeepWaitQueue);
    }

    fn convert(&self, lock: u32, mode: u32, flags: u32, found: &mut Vec<Event>) {
        let (resource, queues) = self.queues(lock);
        let (Some(old), Some(new)) = (self.was(lock).held(), Mode::from_number(mode)) else {
            return;
        };
        let down = old.down_to(new);
        let granted = self.result == 1;
        let between_pr_and_cw = matches!((old, new), (Mode::Pr, Mode::Cw) | (Mode::Cw, Mode::Pr));
        note(found, old == new, Event::ConvertSame);
        note(found, down && old != new && !queues.converting.is_empty(), Event::ConvertDownPastQueue);
        note(found, granted && flags & 4 != 0, Event::ConvertDontQueueGranted);
        if down {
            self.sweep(found, [Event::ConvertDownSweeps, Event::ConvertDownSweepsMany, Event::ConvertDownSweepsBoth]);
        } else if granted {
            note(found, true, Event::ConvertUpInPlace);
            note(found, !self.swept().is_empty(), Event::ConvertUpSweeps);
            note(found, between_pr_and_cw, Event::ConvertPrCwInPlace);
            note(found, !old.compatible(new), Event::ConvertOwnMode);
        } else {
            let fits = self.before.fits(resource, new, lock);
            note(found, between_pr_and_cw, Event::ConvertPrCwQueued);
            note(found, !fits, Event::ConvertQueuedIncompatible);
            note(found, fits, Event::ConvertQueuedBehind);
            note(found, queues.converting.len() >= 3, Event::ConvertDeepQueue);
        }
        self.convert_flags(lock, new, flags, found);
    }

    fn convert_flags(&self, lock: u32, new: Mode, flags: u32, found: &mut Vec<Event>) {
        let (_, queues) = self.queues(lock);
        let Some(old) = self.was(lock).held() else { return };
        let acts = old.writes_value() && new < old;
        let set = flags & 3 != 0;
        note(found, acts && flags & 1 != 0, Event::ConvertStores);
        note(found, acts && flags & 1 != 0 && !queues.valid, Event::ConvertStoresValid);
        note(found, acts && flags & 2 != 0 && queues.valid, Event::ConvertInvalidates);
        note(found, set && !old.writes_value(), Event::ConvertFlagLowMode);
        note(found, set && old.writes_value() && !acts, Event::ConvertFlagNotSmaller);
        note(found, set && self.result == 2, Event::ConvertFlagQueued);
    }

    fn release(&self, lock: u32, flags: u32, found: &mut Vec<Event>) {
        let (resource, queues) = self.queues(lock);
        let emptied = !self.after.resources.contains_key(&resource);
        let place = queues.granted.iter().position(|other| *other == lock);
        let last = queues.granted.len() - 1;
        note(found, emptied, Event::ReleaseFreesResource);
        note(found, last > 0 && place == Some(0), Event::ReleaseFirst);
        note(found, place.is_some_and(|place| place > 0 && place < last), Event::ReleaseMiddle);
        note(found, last > 0 && place == Some(last), Event::ReleaseLast);
        self.sweep(found, [Event::ReleaseSweeps, Event::ReleaseSweepsMany, Event::ReleaseSweepsBoth]);
        let still_blocked = self.after.resources.get(&resource).is_some_and(|r| r.converting.len() + r.waiting.len() > 0);
        note(found, still_blocked && !self.swept().is_empty(), Event::ReleaseSweepStops);
        note(found, still_blocked && self.swept().is_empty(), Event::ReleaseMovesNothing);
        let writer = self.was(lock).held().is_some_and(Mode::writes_value);
        note(found, writer && flags == 1 && !emptied, Event::ReleaseStores);
        note(found, writer && flags == 1 && emptied, Event::ReleaseStoresEmptied);
        note(found, writer && flags == 2 && !emptied && queues.valid, Event::ReleaseInvalidates);
        note(found, writer && flags == 2 && emptied, Event::ReleaseInvalidatesEmptied);
        note(found, !writer && flags != 0, Event::ReleaseFlagLowMode);
    }

    fn cancel(&self, lock: u32, found: &mut Vec<Event>) {
        let (_, queues) = self.queues(lock);
        let swept = !self.swept().is_empty();
        let first = [queues.converting.front(), queues.waiting.front()].contains(&Some(&lock));
        let (head, behind, sweeps) = if self.was(lock).held().is_some() {
            (Event::CancelConvertHead, Event::CancelConvertBehind, Event::CancelConvertSweeps)
        } else {
            (Event::CancelWaitHead, Event::CancelWaitBehind, Event::CancelWaitSweeps)
        };
        note(found, first, head);
        note(found, !first, behind);
        note(found, swept, sweeps);
    }

    fn purge(&self, client: u32, found: &mut Vec<Event>) {
        let its: Vec<&Lock> = self.before.locks.values().filter(|lock| u32::from(lock.client) == client).collect();
        note(found, self.result >= 5, Event::PurgeMany);
        let valid_before = |number: u32| self.before.resources.get(&number).is_some_and(|resource| resource.valid);
        let valid_after = |number: u32| self.after.resources.get(&number).map(|resource| resource.valid);
        let stood_on: Vec<u32> = its.iter().filter_map(|lock| lock.resource()).collect();
        note(found, stood_on.iter().any(|r| valid_before(*r) && valid_after(*r) == Some(false)), Event::PurgeInvalidates);
        let low = its.iter().filter(|lock| lock.held().is_some_and(|held| !held.writes_value())).filter_map(|lock| lock.resource());
        note(found, low.clone().any(|r| valid_after(r) == Some(true)), Event::PurgeReaderKeepsValid);
        note(found, self.before.resources.len() >= self.after.resources.len() + 2, Event::PurgeFreesResources);
        let mut swept: Vec<Option<u32>> = self.swept().iter().map(|lock| self.was(*lock).resource()).collect();
        swept.sort();
        swept.dedup();
        note(found, !swept.is_empty(), Event::PurgeSweeps);
        note(found, swept.len() >= 2, Event::PurgeSweepsTwo);
    }

    fn break_deadlock(&self, found: &mut Vec<Event>) {
        let denied = self.result;
        note(found, self.on_one_list(), Event::BreakOnOneList);
        if denied == 0 {
            let none = self.before.blocked.is_empty();
            note(found, self.looks_further(), Event::BreakLooksFurther);
            return found.push(if none { Event::BreakNoneBlocked } else { Event::BreakNoDeadlock });
        }
        let size = match self.before.most_locks {
            ..=32 => Event::BreakSmall,
            33..=256 => Event::BreakMiddle,
            _ => Event::BreakLarge,
        };
        note(found, true, size);
        let converting = self.was(denied).held().is_some();
        note(found, true, if converting { Event::BreakConversion } else { Event::BreakRequest });
        note(found, self.before.blocked.front() != Some(&denied), Event::BreakNotFirst);
        note(found, !self.swept().is_empty(), Event::BreakSweeps);
        // The rest asks the model again and again, so only for few locks.
        if self.before.blocked.len() <= 24 {
            self.cycle(denied, found);
            note(found, self.after.clone().break_deadlock() != 0, Event::BreakAgain);
        }
    }

    /// Whether two clients that have blocked locks differ by 128: the library looks for both on one list.
    fn on_one_list(&self) -> bool {
        let clients = || self.before.blocked.iter().map(|lock| self.was(*lock).client);
        clients().any(|client| client < 128 && clients().any(|other| other == client + 128))
    }

    /// Whether the client of a blocked lock holds more than NL on a resource where a lock is blocked: the library makes links then.
    fn looks_further(&self) -> bool {
        let blocked = || self.before.blocked.iter().map(|lock| self.was(*lock));
        self.before.locks.values().any(|lock| {
            lock.held().is_some_and(|held| held != Mode::Nl)
                && blocked().any(|other| other.client == lock.client)
                && blocked().any(|other| other.resource() == lock.resource())
        })
    }

    /// What the shortest way from a lock back to itself is like.
    fn cycle(&self, denied: u32, found: &mut Vec<Event>) {
        let way = self.way(denied, denied);
        let mut resources: Vec<Option<u32>> = way.iter().map(|lock| self.was(*lock).resource()).collect();
        resources.sort();
        resources.dedup();
        let all_convert = way.iter().all(|lock| self.was(*lock).held().is_some());
        note(found, way.len() == 1, Event::BreakSelf);
        note(found, way.len() == 2, Event::BreakInTwo);
        note(found, way.len() >= 3, Event::BreakInMore);
        note(found, resources.len() == 2, Event::BreakTwoResources);
        note(found, resources.len() >= 3, Event::BreakMoreResources);
        note(found, way.len() >= 2 && all_convert && resources.len() == 1, Event::BreakConversionsOnly);
        note(found, way.iter().any(|lock| behind_waiters(self.before, *lock)), Event::BreakBehindWaiters);
        let earlier = || self.before.blocked.iter().take_while(|lock| **lock != denied);
        note(found, earlier().any(|lock| !self.way(*lock, denied).is_empty()), Event::BreakBehindCycle);
        let from_a_cycle =
            |to: u32| self.before.blocked.iter().any(|lock| !self.way(*lock, *lock).is_empty() && !self.way(*lock, to).is_empty());
        note(found, earlier().any(|lock| !self.way(*lock, denied).is_empty() && from_a_cycle(*lock)), Event::BreakBetween);
    }

    /// A shortest way of one or more steps from one blocked lock to another: the locks stepped to. Empty if there is none.
    fn way(&self, from: u32, to: u32) -> Vec<u32> {
        let mut ways: Vec<Vec<u32>> = vec![Vec::new()];
        let mut met = Vec::new();
        while !ways.is_empty() {
            let mut longer = Vec::new();
            for way in ways {
                let at = way.last().copied().unwrap_or(from);
                for next in self.before.blocked.iter().filter(|next| self.before.leads_in_one_step(at, **next)) {
                    let on = [way.clone(), vec![*next]].concat();
                    if *next == to {
                        return on;
                    }
                    if !met.contains(next) {
                        met.push(*next);
                        longer.push(on);
                    }
                }
            }
            ways = longer;
        }
        Vec::new()
    }

    fn poll(&self, found: &mut Vec<Event>) {
        let lock = self.lock;
        note(found, lock == 0 && !self.before.notices.is_empty(), Event::PollOthers);
        note(found, lock != 0 && self.before.notices.front() != Some(&lock), Event::PollNotFirst);
        let client = self.before.locks.get(&lock).map(|lock| lock.client);
        let its = self.before.notices.iter().filter(|notice| Some(self.was(**notice).client) == client);
        note(found, its.count() >= 2, Event::PollFirstOfTwo);
        let place = self.before.denied.iter().position(|other| *other == lock);
        let between = place.is_some_and(|place| place > 0 && place + 1 < self.before.denied.len());
        note(found, between, Event::PollFreesBetween);
    }

    fn read(&self, lock: u32, room: usize, found: &mut Vec<Event>) {
        let (_, queues) = self.queues(lock);
        note(found, !queues.valid, Event::ReadNotValid);
        note(found, queues.value != [0; VALUE_BYTES], Event::ReadStored);
        note(found, self.was(lock).blocked(), Event::ReadConverting);
        note(found, self.was(lock).completion() != 0, Event::ReadUnread);
        note(found, room < VALUE_BYTES, Event::ReadLittleRoom);
    }

    fn list(&self, lock: u32, room: usize, found: &mut Vec<Event>) {
        let (_, queues) = self.queues(lock);
        let count = queues.locks().count();
        note(found, room > 0 && room < count, Event::ListCutShort);
        note(found, room == 0, Event::ListNoRoom);
        note(found, room > count, Event::ListRoomLeft);
        let all = !queues.granted.is_empty() && !queues.converting.is_empty() && !queues.waiting.is_empty();
        note(found, all && room >= count, Event::ListAllQueues);
    }

    fn holder(&self, name: &[u8], found: &mut Vec<Event>) {
        let Some(resource) = self.before.named(name) else {
            return found.push(Event::HolderUnknown);
        };
        let mut converting = self.before.resources[&resource].converting.iter();
        note(found, self.result == 0, Event::HolderNobody);
        note(found, converting.any(|lock| self.was(*lock).held() == Some(Mode::Ex)), Event::HolderConverting);
    }
}
