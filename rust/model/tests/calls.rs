//! What the model's calls do beyond what lockplay shows: values, validity, the orders of chains, and other table sizes; and what document 02
//! says of marks, of requests that others wait ahead of, of purge's counts and of counted modes. The bench sequences
//! of document 01 are scripts of lockplay, in `examples/bench`.

use model::layout::{VALUE_BYTES, lock, lock_at, resource, resource_at, slots, words};
use model::{Answer, Flaw, Polled, Purged, Refused, State};

const NL: u32 = 0;
const CR: u32 = 1;
const CW: u32 = 2;
const PR: u32 = 3;
const PW: u32 = 4;
const EX: u32 = 5;

fn state(resources: u32, locks: u32) -> State {
    State::start(resources, locks, words(resources, locks), slots(resources)).expect("sizes in range")
}

/// Each mode is requested on one name by a client of its own, 1 upward.
fn requests(state: &mut State, modes: &[u32]) -> Vec<Answer> {
    let one = |(at, mode): (usize, &u32)| state.request(at as u32 + 1, *mode, 0, b"name").expect("accepted").0;
    modes.iter().enumerate().map(one).collect()
}

/// Polls every client until none has a notice: completions, locks and marks, in the order of clients.
fn poll_all(state: &mut State) -> Vec<(u32, u32, u32)> {
    let mut found = Vec::new();
    for client in 1..=255 {
        while let Ok(Polled { completion, lock, mark }) = state.poll(client)
            && lock != 0
        {
            found.push((completion, lock, mark));
        }
    }
    found
}

fn purged(locks: u32, blocked: u32, unread: u32) -> Purged {
    Purged { locks, blocked, unread }
}

/// What every state must be: what its own tables give back.
fn assert_sound(state: &State) {
    let (words, slots) = state.to_tables();
    assert_eq!(State::read_tables(&words, &slots).as_ref(), Ok(state));
}

#[test]
fn the_last_request_finds_no_record() {
    for locks in [1, 5, 64] {
        let mut s = state(1, locks);
        for lock in 1..=locks {
            assert_eq!(s.request(1, NL, 0, b"name"), Ok((Answer::Granted, lock)));
        }
        assert_eq!(s.request(1, NL, 0, b"name"), Err(Refused::NO_LOCK));
        s.release(1, locks, 0, b"").unwrap();
        assert_eq!(s.request(1, NL, 0, b"name"), Ok((Answer::Granted, locks)));
        assert_eq!(s.request(0, NL, 0, b"name"), Err(Refused::CLIENT));
        assert_sound(&s);
    }
}

#[test]
fn values_are_stored_and_made_not_valid() {
    let mut s = state(1, 4);
    requests(&mut s, &[EX, NL]);
    let value = [9; VALUE_BYTES];
    assert_eq!(s.read(2, 2), Ok(([0; VALUE_BYTES], true)));
    assert_eq!(s.convert(1, 1, PW, 1, &value[1..]), Err(Refused::VALUE));
    assert_eq!(s.convert(1, 1, PW, 1, &value), Ok(Answer::Granted));
    assert_eq!(s.read(2, 2), Ok((value, true)));
    assert_eq!(s.convert(1, 1, PW, 2, b""), Ok(Answer::Granted), "the same mode isn't a smaller one");
    assert_eq!(s.read(2, 2), Ok((value, true)));
    assert_eq!(s.convert(1, 1, CW, 2, b""), Ok(Answer::Granted));
    assert_eq!(s.read(2, 2), Ok((value, false)));
    assert_eq!(s.convert(1, 1, EX, 1, &[1; VALUE_BYTES]), Ok(Answer::Granted));
    assert_eq!(s.read(2, 2), Ok((value, false)), "up isn't a smaller mode");
    s.release(1, 1, 1, &[4; VALUE_BYTES]).unwrap();
    assert_eq!(s.read(2, 2), Ok(([4; VALUE_BYTES], true)));
    assert_eq!(s.release(2, 2, 3, &value), Err(Refused::FLAGS));
    s.release(2, 2, 0, b"").unwrap();
    assert_eq!(s, state(1, 4).tap_free_locks(&[2, 1, 3, 4]), "a freed record keeps nothing");
}

/// For comparing with a state whose free chain is known.
trait TapFreeLocks {
    fn tap_free_locks(self, order: &[u32]) -> State;
}

impl TapFreeLocks for State {
    fn tap_free_locks(mut self, order: &[u32]) -> State {
        self.free_locks = order.iter().copied().collect();
        self
    }
}

#[test]
fn purge_frees_ascending_and_invalidates() {
    let mut s = state(3, 8);
    s.request(1, EX, 0, b"A").unwrap();
    s.request(3, CR, 0, b"A").unwrap();
    s.request(1, PW, 0, b"B").unwrap();
    s.request(2, CR, 0, b"B").unwrap();
    s.request(1, NL, 0, b"C").unwrap();
    s.request(1, EX, 0, b"B").unwrap();
    // 2 waits for client 1, whose 6 is blocked by its own 3: 2 is only behind that deadlock.
    assert_eq!(s.break_deadlock(), 6);
    assert_eq!(s.purge(1), Ok(purged(4, 0, 1)), "6 is denied, and nobody was told");
    assert_eq!(s.free_locks, [6, 5, 3, 1, 7, 8]);
    assert_eq!(s.free_resources, [3]);
    assert!(s.resources.values().all(|resource| !resource.valid));
    assert_eq!(s.notices, [4, 2], "4's mark is older than 2's grant, and outlasts the lock that asked");
    assert!(s.denied.is_empty());
    assert_eq!(s.purge(1), Ok(purged(0, 0, 0)));
    assert_sound(&s);
}

#[test]
fn a_denied_conversion_is_told_first() {
    let mut s = state(1, 4);
    requests(&mut s, &[PR, PR, EX]);
    assert_eq!(s.convert(1, 1, EX, 0, b""), Ok(Answer::Waits));
    assert_eq!(s.convert(2, 2, EX, 0, b""), Ok(Answer::Waits));
    assert_eq!(s.blocked, [3, 1, 2]);
    // 3 waits behind the cycle of 1 and 2 and isn't on it.
    assert_eq!(s.break_deadlock(), 1);
    assert_eq!(s.notices, [1, 2]);
    assert_eq!(s.cancel(1, 1), Err(Refused::UNREAD));
    assert_eq!(s.poll(1), Ok(Polled { completion: 3, lock: 1, mark: EX }));
    assert_eq!(s.break_deadlock(), 0);
    assert_eq!(s.cancel(1, 1), Err(Refused::STATE));
    assert_eq!(s.cancel(2, 2), Ok(1));
    assert_eq!(s.cancel(3, 3), Ok(2));
    assert_sound(&s);
}

#[test]
fn the_denied_lock_joins_the_notices_before_those_its_sweep_grants() {
    let mut s = state(1, 6);
    requests(&mut s, &[PR, PR]);
    assert_eq!(s.convert(1, 1, EX, 0, b""), Ok(Answer::Waits));
    assert_eq!(s.convert(2, 2, PR, 0, b""), Ok(Answer::Granted), "down stays in place");
    assert_eq!(s.request(2, PR, 0, b"name"), Ok((Answer::Waits, 3)));
    // 1 is blocked by 2's PR; client 2 waits with 3 behind 1.
    assert_eq!(s.break_deadlock(), 1);
    assert_eq!(s.notices, [2, 1, 3], "2's mark came before");
    assert_sound(&s);
}

#[test]
fn cancelling_a_head_sweeps() {
    let mut s = state(1, 4);
    requests(&mut s, &[PR, EX, PR, CW]);
    assert_eq!(s.blocked, [2, 3, 4], "a later reader doesn't overtake");
    assert_eq!(s.cancel(2, 2), Ok(2));
    assert_eq!(s.blocked, [4]);
    assert_eq!(poll_all(&mut s), [(0, 1, EX), (1, 3, 0)], "3 waited when 4 came, and had no mode to be in its way with");
    assert_eq!(s.convert(1, 1, CR, 0, b""), Ok(Answer::Granted));
    assert_eq!(s.convert(3, 3, CR, 0, b""), Ok(Answer::Granted));
    assert_eq!(poll_all(&mut s), [(1, 4, 0)]);
    assert_sound(&s);
}

#[test]
fn a_new_request_queues_behind_those_that_wait() {
    let mut s = state(1, 6);
    assert_eq!(requests(&mut s, &[PR, EX, PR]), [Answer::Granted, Answer::Waits, Answer::Waits]);
    assert_eq!(s.notices, [1], "PR is in nobody's way but EX's");
    assert_eq!(s.request(4, CR, 4, b"name"), Err(Refused::BLOCKS), "flag 4 follows the same rule");
    assert_eq!(s.convert(1, 1, PW, 4, b""), Ok(Answer::Granted), "a conversion doesn't look at the wait chain");
    s.convert(1, 1, PR, 0, b"").unwrap();
    assert_eq!(s.resources[&1].waiting, [2, 3], "nor does a sweep go past its head");
    s.release(1, 1, 0, b"").unwrap();
    assert_eq!(poll_all(&mut s), [(1, 2, 0)], "EX came first");
    s.release(2, 2, 0, b"").unwrap();
    assert_eq!(poll_all(&mut s), [(1, 3, 0)]);
    assert_eq!(s.request(4, CR, 4, b"name"), Ok((Answer::Granted, 2)), "nobody waits any more");
    assert_sound(&s);
}

#[test]
fn nl_goes_past_those_that_wait_but_not_past_a_conversion() {
    let mut s = state(1, 8);
    requests(&mut s, &[PR, PR, EX]);
    assert_eq!(s.request(4, NL, 0, b"name"), Ok((Answer::Granted, 4)));
    assert_eq!(s.request(5, NL, 4, b"name"), Ok((Answer::Granted, 5)));
    assert_eq!(s.convert(1, 1, EX, 0, b""), Ok(Answer::Waits));
    assert_eq!(s.request(6, NL, 4, b"name"), Err(Refused::BLOCKS));
    assert_eq!(s.request(6, NL, 0, b"name"), Ok((Answer::Waits, 6)));
    assert_eq!(s.cancel(1, 1), Ok(1));
    assert_eq!(s.resources[&1].waiting, [3, 6], "a sweep goes past no head, not even with NL");
    assert_sound(&s);
}

#[test]
fn a_holder_that_asks_again_behind_one_that_waits_for_it_is_in_a_deadlock() {
    let mut s = state(1, 4);
    requests(&mut s, &[PR, EX]);
    assert_eq!(s.request(1, PR, 0, b"name"), Ok((Answer::Waits, 3)));
    assert_eq!(s.break_deadlock(), 2, "the first of the two on the blocked chain");
    assert_eq!(s.poll(2), Ok(Polled { completion: 2, lock: 2, mark: 0 }));
    assert_eq!(poll_all(&mut s), [(0, 1, EX), (1, 3, 0)]);
    assert_sound(&s);
}

#[test]
fn list_and_holder() {
    let mut s = state(2, 4);
    requests(&mut s, &[EX, NL, CR]);
    s.convert(2, 2, PR, 0, b"").unwrap();
    let entries = s.list(1, 1).unwrap();
    let numbers: Vec<_> = entries.iter().map(|e| [e.number, e.client, e.state, e.held, e.asked]).collect();
    assert_eq!(numbers, [[1, 1, 1, 5, 0], [2, 2, 2, 0, 3], [3, 3, 3, 0, 1]]);
    assert_eq!(s.list(3, 3), Err(Refused::STATE));
    assert_eq!(s.holder(b"name"), Ok(1));
    assert_eq!(s.holder(b"other"), Ok(0));
    assert_eq!(s.holder(b""), Err(Refused::NAME));
}

#[test]
fn a_holder_is_told_that_it_is_in_the_way() {
    let mut s = state(1, 4);
    requests(&mut s, &[PR, EX]);
    assert_eq!(s.poll(2), Ok(Polled { completion: 0, lock: 0, mark: 0 }));
    assert_eq!(s.poll(1), Ok(Polled { completion: 0, lock: 1, mark: EX }));
    assert_eq!(s.poll(1), Ok(Polled::default()), "a mark is told once");
    assert_eq!(s.convert(1, 1, NL, 0, b""), Ok(Answer::Granted));
    assert_eq!(poll_all(&mut s), [(1, 2, 0)]);
    assert_sound(&s);
}

#[test]
fn a_mark_grows_in_its_place() {
    let mut s = state(1, 8);
    requests(&mut s, &[PR, PR, PR, CW]);
    assert_eq!(s.notices, [1, 2, 3]);
    assert_eq!(s.poll(2), Ok(Polled { completion: 0, lock: 2, mark: CW }));
    assert_eq!(s.request(5, EX, 0, b"name"), Ok((Answer::Waits, 5)));
    assert_eq!(s.notices, [1, 3, 2], "1 and 3 keep their places, 2 joins again");
    assert_eq!(s.request(6, PW, 0, b"name"), Ok((Answer::Waits, 6)));
    assert_eq!(poll_all(&mut s), [(0, 1, EX), (0, 2, EX), (0, 3, EX)], "a smaller mode changes nothing");
    assert_sound(&s);
}

#[test]
fn marked_are_incompatible_holders_by_the_matrix() {
    let mut s = state(1, 8);
    requests(&mut s, &[NL, CR, PR, PW]);
    assert_eq!(poll_all(&mut s), [(0, 3, PW)], "CR goes with PW");
    assert_eq!(s.convert(3, 3, CW, 0, b""), Ok(Answer::Granted));
    assert_eq!(s.request(5, PR, 0, b"name"), Ok((Answer::Waits, 5)));
    assert_eq!(poll_all(&mut s), [(0, 3, PR)], "PR and CW exclude each other");
    assert_eq!(s.request(3, EX, 0, b"name"), Ok((Answer::Waits, 6)));
    assert_eq!(poll_all(&mut s), [(0, 2, EX), (0, 3, EX)], "the asking client's other lock too");
}

#[test]
fn a_conversion_marks_granted_then_converting_locks_and_never_itself() {
    let mut s = state(1, 8);
    requests(&mut s, &[PR, PR, PR, PR]);
    assert_eq!(s.convert(1, 1, EX, 0, b""), Ok(Answer::Waits));
    assert_eq!(s.notices, [2, 3, 4]);
    assert_eq!(poll_all(&mut s).len(), 3);
    assert_eq!(s.convert(3, 3, CW, 0, b""), Ok(Answer::Waits));
    assert_eq!(s.notices, [2, 4, 1]);
    assert_eq!(s.poll(1), Ok(Polled { completion: 0, lock: 1, mark: CW }), "a converting lock is told too");
    assert_eq!(s.locks[&1].state_number(), 2);
    // CR goes with every PR, and waits only because conversions stand in the queue.
    assert_eq!(s.request(5, CR, 0, b"name"), Ok((Answer::Waits, 5)));
    assert_eq!(s.notices, [2, 4]);
    assert_sound(&s);
}

#[test]
fn a_mark_stays_through_conversions_and_is_told_with_the_completion() {
    let mut s = state(1, 8);
    requests(&mut s, &[PR, PR, EX]);
    assert_eq!(s.notices, [1, 2]);
    assert_eq!(s.convert(1, 1, PW, 0, b""), Ok(Answer::Waits), "a mark stops no conversion");
    assert_eq!(s.cancel(1, 1), Ok(1), "nor a cancel");
    assert_eq!(s.convert(1, 1, PW, 0, b""), Ok(Answer::Waits));
    assert_eq!(s.convert(2, 2, CR, 0, b""), Ok(Answer::Granted), "this grants 1");
    assert_eq!(s.notices, [1, 2]);
    assert_eq!(s.release(1, 1, 0, b""), Err(Refused::UNREAD), "a completion does");
    assert_eq!(s.poll(1), Ok(Polled { completion: 1, lock: 1, mark: EX }));
    assert_eq!(s.cancel(3, 3), Ok(2));
    assert_eq!(s.poll(2), Ok(Polled { completion: 0, lock: 2, mark: EX }), "a mark outlasts its reason");
    assert_sound(&s);
}

#[test]
fn a_mark_goes_with_its_lock() {
    let mut s = state(2, 8);
    requests(&mut s, &[PR, PR, EX]);
    s.request(2, EX, 0, b"other").unwrap();
    s.request(1, PR, 0, b"other").unwrap();
    assert_eq!(s.notices, [1, 2, 4]);
    assert_eq!(s.release(1, 1, 0, b""), Ok(()), "a mark stops no release");
    assert_eq!(s.notices, [2, 4]);
    assert_eq!(s.purge(2), Ok(purged(2, 0, 0)), "a mark alone is no completion");
    assert_eq!(poll_all(&mut s), [(1, 5, 0), (1, 3, 0)]);
    assert_eq!(s.request(4, NL, 0, b"name"), Ok((Answer::Granted, 4)));
    assert_eq!(poll_all(&mut s), [], "a freed record keeps nothing");
    assert_sound(&s);
}

#[test]
fn purge_counts_converting_and_waiting_locks_as_blocked() {
    let mut s = state(4, 8);
    requests(&mut s, &[PR, PR]);
    s.request(2, EX, 0, b"other").unwrap();
    assert_eq!(s.convert(1, 1, EX, 0, b""), Ok(Answer::Waits));
    assert_eq!(s.request(1, CR, 0, b"other"), Ok((Answer::Waits, 4)));
    assert_eq!(s.request(1, EX, 0, b"own"), Ok((Answer::Granted, 5)));
    assert_eq!(s.request(1, EX, 0, b"own"), Ok((Answer::Waits, 6)), "for its client's own lock");
    assert_eq!(s.purge(0), Err(Refused::CLIENT));
    assert_eq!(s.purge(3), Ok(purged(0, 0, 0)));
    assert_eq!(s.purge(1), Ok(purged(4, 3, 0)), "6 isn't granted on the way");
    assert_eq!(s.purge(2), Ok(purged(2, 0, 0)), "2's and 3's marks are no completions");
    assert_eq!((s.free_locks.len(), s.free_resources.len()), (8, 4));
}

/// Client 1 has a completion of each kind unread: the conversion of lock 1 was granted, request 4 denied, and the conversion of 5 denied.
fn each_completion() -> State {
    let mut s = state(4, 8);
    requests(&mut s, &[NL, EX]);
    assert_eq!(s.convert(1, 1, PR, 0, b""), Ok(Answer::Waits));
    s.request(1, EX, 0, b"own").unwrap();
    assert_eq!(s.request(1, EX, 0, b"own"), Ok((Answer::Waits, 4)));
    assert_eq!(s.break_deadlock(), 4);
    s.release(2, 2, 0, b"").unwrap();
    assert_eq!(requests_on(&mut s, b"both", &[(1, PR), (1, PR)]), [(Answer::Granted, 2), (Answer::Granted, 5)]);
    assert_eq!(s.convert(1, 5, EX, 0, b""), Ok(Answer::Waits));
    assert_eq!(s.break_deadlock(), 5);
    s
}

fn requests_on(state: &mut State, name: &[u8], requests: &[(u32, u32)]) -> Vec<(Answer, u32)> {
    requests.iter().map(|(client, mode)| state.request(*client, *mode, 0, name).expect("accepted")).collect()
}

#[test]
fn purge_counts_every_completion_as_unread() {
    let mut s = each_completion();
    assert_eq!([1, 4, 5].map(|lock| s.locks[&lock].completion()), [1, 2, 3]);
    assert_eq!([2, 3].map(|lock| s.locks[&lock].mark_number()), [EX, EX], "marks alone, beside them");
    assert_eq!(requests_on(&mut s, b"name", &[(2, EX), (1, NL)]), [(Answer::Waits, 6), (Answer::Granted, 7)]);
    assert_eq!(requests_on(&mut s, b"name", &[(1, CR)]), [(Answer::Waits, 8)]);
    assert_eq!(s.purge(1), Ok(purged(7, 1, 3)), "8 is blocked; 2, 3 and 7 are neither");
    assert_eq!(s.purge(2), Ok(purged(1, 0, 1)), "6 was granted by the sweep");
}

#[test]
fn a_completion_that_was_polled_is_not_counted() {
    let mut s = each_completion();
    let told: Vec<u32> = poll_all(&mut s).iter().map(|(completion, ..)| *completion).collect();
    assert_eq!(told, [0, 2, 1, 0, 3]);
    assert_eq!(s.purge(1), Ok(purged(4, 0, 0)), "4 was freed by its poll");
}

/// Answers 2 are the locks now blocked, the completions unread, the polls with one, the accepted cancels and purge's last two counts.
#[test]
fn every_blocked_call_is_heard_of_once() {
    let mut s = state(1, 8);
    let waits = requests(&mut s, &[EX, EX, PR, PR, CR, EX]).iter().filter(|answer| **answer == Answer::Waits).count();
    assert_eq!(waits, 5);
    assert_eq!(s.cancel(6, 6), Ok(2));
    assert_eq!(s.purge(2), Ok(purged(1, 1, 0)));
    s.release(1, 1, 0, b"").unwrap();
    assert_eq!(s.poll(3), Ok(Polled { completion: 1, lock: 3, mark: 0 }));
    assert_eq!(s.purge(4), Ok(purged(1, 0, 1)));
    assert_eq!(s.locks.values().filter(|lock| lock.unread()).count(), 1, "and 5's is left: 1 + 1 + 1 + 1 + 1");
    assert!(s.blocked.is_empty());
}

/// Sound tables with a mark, in which lock 1 is granted and lock 2 waits, and a word of a lock changed.
fn judged(lock: u32, field: usize, word: u32) -> Result<State, Flaw> {
    let mut s = state(1, 4);
    requests(&mut s, &[PR, EX]);
    let (mut words, slots) = s.to_tables();
    words[lock_at(1, lock, field)] = word;
    State::read_tables(&words, &slots)
}

#[test]
fn marks_in_sound_tables() {
    assert_eq!(words(0, 4), 8 + 40, "ten words for each lock");
    for mark in CR..=EX {
        assert_eq!(judged(1, lock::MARK, mark).map(|s| s.locks[&1].mark_number()), Ok(mark));
    }
    assert_eq!(judged(1, lock::MARK, 6), Err(Flaw::Mark));
    assert_eq!(judged(1, lock::MARK, 0), Err(Flaw::Notices), "a notice without a mark or a completion");
    assert_eq!(judged(2, lock::MARK, 1), Err(Flaw::Mark), "a waiting lock");
    assert_eq!(judged(3, lock::MARK, 1), Err(Flaw::FreeLock));
    assert!(judged(1, lock::COMPLETION, 1).is_ok(), "a mark beside a completion");
}

/// The words of a resource that count the locks which hold NL to EX.
fn counts(state: &State, number: u32) -> [u32; 6] {
    let (words, _) = state.to_tables();
    resource::COUNTS.map(|field| words[resource_at(number, field)])
}

#[test]
fn held_modes_are_counted() {
    assert_eq!(words(4, 0), 8 + 48, "twelve words for each resource");
    assert_eq!(resource_at(2, resource::COUNTS[0]), 8 + 12 + 6, "NL to EX in words 6 to 11");
    let mut s = state(2, 8);
    requests(&mut s, &[CR, PW, NL, CR, EX]);
    assert_eq!(counts(&s, 1), [1, 2, 0, 0, 1, 0], "5 waits and holds nothing, not even NL");
    assert_eq!(s.convert(3, 3, CW, 0, b""), Ok(Answer::Waits));
    assert_eq!(counts(&s, 1), [1, 2, 0, 0, 1, 0], "a converting lock by what it holds");
    assert_eq!(s.release(2, 2, 0, b""), Ok(()));
    assert_eq!(counts(&s, 1), [0, 2, 1, 0, 0, 0], "the sweep granted 3");
    assert_eq!(s.convert(4, 4, NL, 0, b""), Ok(Answer::Granted));
    assert_eq!(counts(&s, 1), [1, 1, 1, 0, 0, 0]);
    assert_eq!(s.purge(3), Ok(purged(1, 0, 1)));
    assert_eq!(counts(&s, 1), [1, 1, 0, 0, 0, 0]);
    assert_eq!(s.purge(1), Ok(purged(1, 0, 0)));
    assert_eq!(counts(&s, 1), [1, 0, 0, 0, 0, 1], "the sweep granted 5");
    assert_eq!(s.purge(5), Ok(purged(1, 0, 1)));
    assert_eq!(s.release(4, 4, 0, b""), Ok(()));
    assert_eq!(counts(&s, 1), [0; 6], "a freed record keeps nothing");
}

/// Tables in which resource 1 counts a CR, a PR and an NL lock, which converts, beside one that waits, with these words in place of the six.
fn judged_counts(number: u32, counts: [u32; 6]) -> Option<Flaw> {
    let mut s = state(2, 8);
    requests(&mut s, &[CR, PR, NL, EX]);
    s.convert(3, 3, EX, 0, b"").unwrap();
    let (mut words, slots) = s.to_tables();
    resource::COUNTS.into_iter().zip(counts).for_each(|(field, count)| words[resource_at(number, field)] = count);
    State::read_tables(&words, &slots).err()
}

#[test]
fn counts_in_sound_tables() {
    assert_eq!(judged_counts(1, [1, 1, 0, 1, 0, 0]), None);
    for wrong in [[2, 1, 0, 1, 0, 0], [0, 1, 0, 1, 0, 0], [1, 0, 1, 1, 0, 0], [0, 1, 0, 1, 0, 1], [1, 1, 0, 1, 0, u32::MAX], [0; 6]] {
        assert_eq!(judged_counts(1, wrong), Some(Flaw::Count), "{wrong:?}");
    }
    assert_eq!(judged_counts(2, [0; 6]), None);
    assert_eq!(judged_counts(2, [1, 0, 0, 0, 0, 0]), Some(Flaw::FreeResource));
    assert_eq!(judged_counts(2, [0, 0, 0, 0, 0, 1]), Some(Flaw::FreeResource));
}
