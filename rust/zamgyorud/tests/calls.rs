//! The wrapper over the library: every call, its answers and its refusals.

use zamgyorud::layout::{self, MOST_LOCKS, MOST_RESOURCES, NAME_BYTES, VALUE_BYTES};
use zamgyorud::{Cancelled, Completion, Flags, Mode, Notice, Outcome, Purged, Queue, Refusal, Tables, holder};

fn tables() -> Tables {
    Tables::start(4, 8).expect("sizes in range")
}

/// Requests modes on RES-A by clients 1 upward.
fn requested(modes: &[Mode]) -> Tables {
    let mut tables = tables();
    for (at, mode) in modes.iter().enumerate() {
        tables.request(at as u32 + 1, *mode, Flags::NONE, b"RES-A").expect("accepted");
    }
    tables
}

/// The notice that a wait has ended, with no mark.
fn ended(lock: u32, completion: Completion) -> Option<Notice> {
    Some(Notice { lock, completion: Some(completion), mark: None })
}

/// The notice that a lock is in the way, with no completion.
fn in_the_way(lock: u32, mode: Mode) -> Option<Notice> {
    Some(Notice { lock, completion: None, mark: Some(mode) })
}

/// What a purge answers.
fn purged(locks: u32, blocked: u32, unread: u32) -> Result<Purged, Refusal> {
    Ok(Purged { locks, blocked, unread })
}

#[test]
fn guide_2_3_9_as_drawn() {
    let mut t = requested(&[Mode::Pw, Mode::Nl, Mode::Nl, Mode::Nl]);
    for (lock, mode) in [(2, Mode::Ex), (3, Mode::Pw), (4, Mode::Cr)] {
        assert_eq!(t.convert(lock, lock, mode, Flags::NONE, b""), Ok(Outcome::Waiting));
    }
    for (client, mode) in [(5, Mode::Cr), (6, Mode::Pr), (7, Mode::Cr)] {
        assert_eq!(t.request(client, mode, Flags::NONE, b"RES-A"), Ok((Outcome::Waiting, client)));
    }
    let drawn = "\
RES-A (value valid)
  GRANTED     lock 1, client 1, PW, marked EX
  CONVERTING  lock 2, client 2, NL to EX
              lock 3, client 3, NL to PW
              lock 4, client 4, NL to CR
  WAITING     lock 5, client 5, CR
              lock 6, client 6, PR
              lock 7, client 7, CR
";
    assert_eq!(t.to_string(), drawn);
    assert_eq!(t.convert(1, 1, Mode::Cr, Flags::NONE, b""), Ok(Outcome::Granted));
    assert_eq!(t.release(1, 1, Flags::NONE, b""), Ok(()));
    assert_eq!(t.poll(2), Ok(ended(2, Completion::Granted)));
    assert_eq!(t.convert(2, 2, Mode::Nl, Flags::NONE, b""), Ok(Outcome::Granted));
    for client in [3, 4, 5] {
        assert_eq!(t.poll(client), Ok(ended(client, Completion::Granted)));
    }
    assert_eq!((t.poll(6), t.poll(7)), (Ok(None), Ok(None)));
    assert_eq!(t.release(3, 3, Flags::NONE, b""), Ok(()));
    let drawn = "\
RES-A (value valid)
  GRANTED     lock 2, client 2, NL
              lock 4, client 4, CR
              lock 5, client 5, CR
              lock 6, client 6, PR
              lock 7, client 7, CR
  CONVERTING  -
  WAITING     -
";
    assert_eq!(t.to_string(), drawn);
}

#[test]
fn values() {
    let mut t = requested(&[Mode::Ex, Mode::Nl]);
    let stored = [3; VALUE_BYTES];
    assert_eq!(t.convert(1, 1, Mode::Pw, Flags::STORE_VALUE, &stored[1..]), Err(Refusal::Value));
    assert_eq!(t.convert(1, 1, Mode::Pw, Flags::STORE_VALUE, &stored), Ok(Outcome::Granted));
    let value = t.read(2, 2).expect("accepted");
    assert_eq!((value.bytes, value.valid), (stored, true));
    assert_eq!(t.release(1, 1, Flags::INVALIDATE_VALUE, b""), Ok(()));
    let value = t.read(2, 2).expect("accepted");
    assert_eq!((value.bytes, value.valid), (stored, false));
    assert!(t.to_string().starts_with("RES-A (value not valid)"));
    assert_eq!(t.release(2, 2, Flags::STORE_VALUE | Flags::INVALIDATE_VALUE, &stored), Err(Refusal::Flags));
}

#[test]
fn deadlocks_and_cancels() {
    let mut t = requested(&[Mode::Pr, Mode::Pr, Mode::Ex]);
    assert_eq!(t.convert(1, 1, Mode::Ex, Flags::NONE, b""), Ok(Outcome::Waiting));
    assert_eq!(t.convert(2, 2, Mode::Ex, Flags::NO_QUEUE, b""), Err(Refusal::Blocks));
    assert_eq!(t.convert(2, 2, Mode::Ex, Flags::NONE, b""), Ok(Outcome::Waiting));
    assert_eq!(t.break_deadlock(), Ok(Some(1)));
    assert_eq!(t.release(1, 1, Flags::NONE, b""), Err(Refusal::Unread));
    assert_eq!(t.poll(1), Ok(Some(Notice { lock: 1, completion: Some(Completion::ConversionDenied), mark: Some(Mode::Ex) })));
    assert_eq!(t.break_deadlock(), Ok(None));
    assert_eq!(t.cancel(2, 2), Ok(Cancelled::Conversion));
    assert_eq!(t.cancel(3, 3), Ok(Cancelled::Request));
    assert_eq!(t.cancel(1, 1), Err(Refusal::State));
    assert_eq!(t.request(1, Mode::Ex, Flags::NONE, b"RES-A"), Ok((Outcome::Waiting, 3)));
    assert_eq!(t.break_deadlock(), Ok(Some(3)));
    assert_eq!(t.poll(1), Ok(in_the_way(1, Mode::Ex)));
    assert_eq!(t.poll(1), Ok(ended(3, Completion::RequestDenied)));
    assert_eq!(t.purge(1), purged(1, 0, 0));
    assert_eq!(t.purge(9), purged(0, 0, 0));
}

/// Lock 1 holds PR and waits for EX, behind lock 2; locks 3 to 5 of client 1 wait behind it. Lock 6 holds RES-B for client 1, and has a
/// mark for lock 7, whose request is denied. The last purge finds a lock with a completion unread and none blocked.
#[test]
fn a_purge_counts_the_calls_that_are_open() {
    let mut t = requested(&[Mode::Pr, Mode::Pr]);
    assert_eq!(t.convert(1, 1, Mode::Ex, Flags::NONE, b""), Ok(Outcome::Waiting));
    for lock in 3..=5 {
        assert_eq!(t.request(1, Mode::Nl, Flags::NONE, b"RES-A"), Ok((Outcome::Waiting, lock)));
    }
    assert_eq!(t.request(1, Mode::Ex, Flags::NONE, b"RES-B"), Ok((Outcome::Granted, 6)));
    assert_eq!(t.request(1, Mode::Ex, Flags::NONE, b"RES-B"), Ok((Outcome::Waiting, 7)));
    assert_eq!(t.break_deadlock(), Ok(Some(7)));
    assert_eq!(t.request(2, Mode::Cr, Flags::NONE, b"RES-B"), Ok((Outcome::Waiting, 8)));
    assert_eq!((t.purge(0), t.purge(256)), (Err(Refusal::Client), Err(Refusal::Client)));
    assert_eq!(t.purge(1), purged(6, 4, 1));
    assert_eq!((t.purge(1), t.poll(1)), (purged(0, 0, 0), Ok(None)));
    assert_eq!(t.purge(2), purged(2, 0, 1));
}

/// Lock 1 holds PR, and lock 2 waits for EX. PR fits what is held, but waits behind lock 2; NL passes it, and a conversion does.
#[test]
fn a_waiting_request_is_not_overtaken() {
    let mut t = requested(&[Mode::Pr, Mode::Ex]);
    let before = t.clone();
    assert_eq!(t.request(3, Mode::Pr, Flags::NO_QUEUE, b"RES-A"), Err(Refusal::Blocks));
    assert_eq!(t, before);
    assert_eq!(t.request(3, Mode::Pr, Flags::NONE, b"RES-A"), Ok((Outcome::Waiting, 3)));
    assert_eq!(t.request(4, Mode::Nl, Flags::NO_QUEUE, b"RES-A"), Ok((Outcome::Granted, 4)));
    assert_eq!(t.convert(4, 4, Mode::Pr, Flags::NO_QUEUE, b""), Ok(Outcome::Granted));
    let drawn = "\
RES-A (value valid)
  GRANTED     lock 1, client 1, PR, marked EX
              lock 4, client 4, PR
  CONVERTING  -
  WAITING     lock 2, client 2, EX
              lock 3, client 3, PR
";
    assert_eq!(t.to_string(), drawn);
    assert_eq!((t.purge(1), t.purge(4)), (purged(1, 0, 0), purged(1, 0, 0)));
    assert_eq!((t.poll(2), t.poll(3)), (Ok(ended(2, Completion::Granted)), Ok(None)));
    assert_eq!(t.release(2, 2, Flags::NONE, b""), Ok(()));
    assert_eq!(t.poll(3), Ok(ended(3, Completion::Granted)));
    assert_eq!(t.request(5, Mode::Pr, Flags::NO_QUEUE, b"RES-A"), Ok((Outcome::Granted, 2)));
}

/// Lock 1 holds PW, lock 2 CR. PR has to wait for lock 1 alone, and so has CW, whose number is smaller; EX has to wait for both.
#[test]
fn marks_are_set_raised_and_polled() {
    let mut t = requested(&[Mode::Pw, Mode::Cr]);
    assert_eq!((t.poll(1), t.poll(2)), (Ok(None), Ok(None)));
    let marks = |t: &Tables| t.resources().expect("sound")[0].locks.iter().map(|lock| lock.mark).collect::<Vec<_>>();
    let mut asked = |mode: Mode| {
        assert_eq!(t.request(3, mode, Flags::NO_QUEUE, b"RES-A"), Err(Refusal::Blocks));
        assert!(matches!(t.request(3, mode, Flags::NONE, b"RES-A"), Ok((Outcome::Waiting, _))));
        marks(&t)
    };
    assert_eq!(asked(Mode::Pr), [Some(Mode::Pr), None, None]);
    assert_eq!(asked(Mode::Cw), [Some(Mode::Pr), None, None, None]);
    assert_eq!(asked(Mode::Ex), [Some(Mode::Ex), Some(Mode::Ex), None, None, None]);
    assert_eq!(Tables::load(&t.image().expect("sound")).as_ref(), Ok(&t));
    assert_eq!((t.poll(1), t.poll(1)), (Ok(in_the_way(1, Mode::Ex)), Ok(None)));
    // A mark stops no conversion and stays with the lock, also where nobody waits any more.
    assert_eq!(t.convert(2, 2, Mode::Nl, Flags::NONE, b""), Ok(Outcome::Granted));
    assert_eq!(t.purge(3), purged(3, 3, 0));
    assert_eq!((t.poll(2), t.poll(2)), (Ok(in_the_way(2, Mode::Ex)), Ok(None)));
}

/// Two locks hold PR, and each asks for more. The second is in the way of the first, and the first, which is converting, of the second.
#[test]
fn a_converting_lock_is_marked_and_keeps_its_mark_when_granted() {
    let mut t = requested(&[Mode::Pr, Mode::Pr]);
    assert_eq!(t.convert(1, 1, Mode::Ex, Flags::NONE, b""), Ok(Outcome::Waiting));
    assert_eq!(t.convert(2, 2, Mode::Pw, Flags::NONE, b""), Ok(Outcome::Waiting));
    let drawn = "\
RES-A (value valid)
  GRANTED     -
  CONVERTING  lock 1, client 1, PR to EX, marked PW
              lock 2, client 2, PR to PW, marked EX
  WAITING     -
";
    assert_eq!(t.to_string(), drawn);
    assert_eq!((t.poll(2), t.poll(2)), (Ok(in_the_way(2, Mode::Ex)), Ok(None)));
    assert_eq!(t.purge(2), purged(1, 1, 0));
    assert_eq!(t.poll(1), Ok(Some(Notice { lock: 1, completion: Some(Completion::Granted), mark: Some(Mode::Pw) })));
    assert_eq!(t.release(1, 1, Flags::NONE, b""), Ok(()));
}

#[test]
fn lists() {
    let mut t = requested(&[Mode::Ex, Mode::Nl, Mode::Cr]);
    t.convert(2, 2, Mode::Pr, Flags::NONE, b"").expect("accepted");
    let list = t.list(1, 1).expect("accepted");
    assert_eq!(list, t.resources().expect("sound")[0].locks.iter().map(|lock| lock.entry).collect::<Vec<_>>());
    assert_eq!(list.iter().map(|entry| entry.lock).collect::<Vec<_>>(), [1, 2, 3]);
    assert_eq!((list[0].held, list[0].asked, list[0].queue), (Some(Mode::Ex), None, Queue::Granted));
    assert_eq!((list[1].held, list[1].asked, list[1].queue), (Some(Mode::Nl), Some(Mode::Pr), Queue::Converting));
    assert_eq!((list[2].held, list[2].asked, list[2].queue), (None, Some(Mode::Cr), Queue::Waiting));
    assert_eq!(t.list(3, 3), Err(Refusal::State));
    assert_eq!(t.list(1, 8), Err(Refusal::LockNumber));
}

#[test]
fn images() {
    let t = requested(&[Mode::Ex, Mode::Cr]);
    let image = t.image().expect("sound");
    assert_eq!(Tables::load(&image).as_ref(), Ok(&t));
    assert_eq!(holder(&image, b"RES-A"), Ok(Some(1)));
    assert_eq!(holder(&image, b"RES-B"), Ok(None));
    assert_eq!(holder(&image, b""), Err(Refusal::Name));
    assert_eq!(holder(&image[1..], b"RES-A"), Err(Refusal::Unsound));
    for bad in [&image[..0], &image[..7], &image[..image.len() - 1]] {
        assert_eq!(Tables::load(bad), Err(Refusal::Unsound));
    }
    let mut smaller = Tables::start(1, 1).expect("sizes in range");
    assert_eq!(smaller.load_into(&image), Err(Refusal::Lengths));
    assert_eq!(smaller, Tables::start(1, 1).expect("sizes in range"));
}

#[test]
fn sizes_and_refusals() {
    for (resources, locks) in [(0, 1), (1, 0), (MOST_RESOURCES + 1, 1), (1, MOST_LOCKS + 1), (u32::MAX, u32::MAX)] {
        assert_eq!(Tables::start(resources, locks), Err(Refusal::Sizes));
    }
    let mut t = Tables::start(MOST_RESOURCES, MOST_LOCKS).expect("sizes in range");
    assert!(t.is_sound());
    assert_eq!(t.request(0, Mode::Nl, Flags::NONE, b"a"), Err(Refusal::Client));
    assert_eq!(t.request(1, Mode::Nl, Flags::from_bits(8), b"a"), Err(Refusal::Flags));
    assert_eq!(t.request(1, Mode::Nl, Flags::NONE, &[1; NAME_BYTES + 1]), Err(Refusal::Name));
    assert_eq!(t.request(1, Mode::Nl, Flags::NONE, &[1; NAME_BYTES]), Ok((Outcome::Granted, 1)));
    let mut one = Tables::start(1, 1).expect("sizes in range");
    one.request(1, Mode::Nl, Flags::NONE, b"a").expect("accepted");
    assert_eq!(one.request(1, Mode::Nl, Flags::NONE, b"b"), Err(Refusal::NoResource));
    assert_eq!(one.request(1, Mode::Nl, Flags::NONE, b"a"), Err(Refusal::NoLock));
}

/// The words and slots of fresh tables with one word changed, which no sound tables have.
fn damaged_parts() -> (Vec<u32>, Vec<u8>) {
    let (mut words, slots) = tables().into_parts();
    words[layout::header::ZERO] = 1;
    (words, slots)
}

#[test]
fn unsound_tables_are_refused_and_shown_as_such() {
    let (words, slots) = damaged_parts();
    let mut t = Tables::from_parts_unchecked(words, slots);
    let before = t.clone();
    assert!(!t.is_sound());
    assert_eq!(t.request(1, Mode::Nl, Flags::NONE, b"a"), Err(Refusal::Unsound));
    assert_eq!((t.purge(1), t.break_deadlock(), t.poll(1)), (Err(Refusal::Unsound), Err(Refusal::Unsound), Err(Refusal::Unsound)));
    assert_eq!(t.image(), Err(Refusal::Unsound));
    assert_eq!(t.list(1, 1), Err(Refusal::Unsound));
    assert_eq!(t.to_string(), "the tables aren't sound\n");
    assert_eq!(t, before);
    assert_eq!(Tables::from_parts_unchecked(Vec::new(), Vec::new()).read(1, 1), Err(Refusal::Unsound));
    assert_eq!(tables().to_string(), "no resource is in use\n");
}

#[test]
fn resources_of_unsound_and_of_idle_tables_differ() {
    let (words, slots) = damaged_parts();
    assert_eq!(Tables::from_parts_unchecked(words, slots).resources(), Err(Refusal::Unsound));
    assert_eq!(tables().resources(), Ok(Vec::new()));
    let mut t = requested(&[Mode::Ex]);
    assert_eq!(t.resources().expect("sound").len(), 1);
    assert_eq!(t.release(1, 1, Flags::NONE, b""), Ok(()));
    assert_eq!(t.resources(), Ok(Vec::new()));
}

#[test]
fn parts_go_both_ways() {
    let mut t = requested(&[Mode::Ex, Mode::Pr]);
    let (words, slots) = t.clone().into_parts();
    assert_eq!((&words[..], &slots[..]), (t.words(), t.slots()));
    let mut again = Tables::from_parts(words, slots).expect("sound");
    assert_eq!(again, t);
    // What comes back is the whole state: the same call does the same to both.
    assert_eq!((again.purge(1), t.purge(1)), (purged(1, 0, 0), purged(1, 0, 0)));
    assert_eq!(again, t);
    assert_eq!(again.poll(2), Ok(ended(2, Completion::Granted)));
}

#[test]
fn unsound_parts_are_refused() {
    let (words, slots) = damaged_parts();
    assert_eq!(Tables::from_parts(words, slots), Err(Refusal::Unsound));
    assert_eq!(Tables::from_parts(Vec::new(), Vec::new()), Err(Refusal::Unsound));
    let (words, slots) = requested(&[Mode::Ex]).into_parts();
    assert_eq!(Tables::from_parts(words[1..].to_vec(), slots.clone()), Err(Refusal::Unsound));
    assert_eq!(Tables::from_parts(words.clone(), slots[1..].to_vec()), Err(Refusal::Unsound));
    // Two locks held in modes that exclude each other, and counted so.
    let (mut held, slots) = requested(&[Mode::Ex, Mode::Nl]).into_parts();
    let second_held = layout::lock_at(held[layout::header::RESOURCES], 2, layout::lock::HELD);
    held[second_held] = Mode::Cr.number();
    count(&mut held, [0, 1, 0, 0, 0, 1]);
    assert_eq!(Tables::from_parts(held, slots), Err(Refusal::Unsound));
}

/// What resource 1 counts: the locks that hold NL to EX.
fn counts(t: &Tables) -> [u32; 6] {
    layout::resource::COUNTS.map(|field| t.words()[layout::resource_at(1, field)])
}

/// Makes resource 1 count so many locks.
fn count(words: &mut [u32], counts: [u32; 6]) {
    layout::resource::COUNTS.into_iter().zip(counts).for_each(|(field, count)| words[layout::resource_at(1, field)] = count);
}

/// Lock 1 holds CR and lock 2 PR; lock 3 waits for EX, and holds nothing, not even NL. Lock 1 has to wait for PR as long as lock 2 holds PW, and
/// is counted by its CR meanwhile.
#[test]
fn held_modes_are_counted() {
    let mut t = requested(&[Mode::Cr, Mode::Pr, Mode::Ex]);
    assert_eq!(counts(&t), [0, 1, 0, 1, 0, 0]);
    assert_eq!(t.convert(2, 2, Mode::Pw, Flags::NONE, b""), Ok(Outcome::Granted));
    assert_eq!(counts(&t), [0, 1, 0, 0, 1, 0]);
    assert_eq!(t.convert(1, 1, Mode::Pr, Flags::NONE, b""), Ok(Outcome::Waiting));
    assert_eq!(counts(&t), [0, 1, 0, 0, 1, 0]);
    assert_eq!(t.release(2, 2, Flags::NONE, b""), Ok(()));
    assert_eq!(counts(&t), [0, 0, 0, 1, 0, 0]);
    assert_eq!(t.purge(1), purged(1, 0, 1));
    assert_eq!(counts(&t), [0, 0, 0, 0, 0, 1]);
    assert_eq!(t.poll(3), Ok(ended(3, Completion::Granted)));
    assert_eq!(t.release(3, 3, Flags::NONE, b""), Ok(()));
    assert_eq!(counts(&t), [0; 6]);
}

#[test]
fn wrong_counts_are_refused() {
    let (words, slots) = requested(&[Mode::Cr, Mode::Pr, Mode::Ex]).into_parts();
    for wrong in [[1, 1, 0, 1, 0, 0], [0, 0, 0, 1, 0, 0], [0, 1, 0, 1, 0, 1], [0, 1, 1, 0, 0, 0], [u32::MAX, 2, 0, 1, 0, 0], [0; 6]] {
        let mut miscounted = words.clone();
        count(&mut miscounted, wrong);
        assert_eq!(Tables::from_parts(miscounted.clone(), slots.clone()), Err(Refusal::Unsound), "{wrong:?}");
        let mut t = Tables::from_parts_unchecked(miscounted, slots.clone());
        let before = t.clone();
        assert_eq!(t.request(4, Mode::Nl, Flags::NONE, b"RES-A"), Err(Refusal::Unsound));
        assert_eq!(t, before);
    }
    assert!(Tables::from_parts(words, slots).is_ok());
}
