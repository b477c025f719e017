//! The named damages: every condition of soundness, each broken in the ways that document 01's words allow, and changes after which the
//! tables are still sound. Every one must have been made when a comparison ends.

use crate::call::Change;
use crate::damage::*;
use model::layout::{MOST_CLIENT, MOST_LOCKS, MOST_RESOURCES, NAME_BYTES, SLOT_BYTES, header, lock, resource};
use model::{Flaw, Mode};

/// A named damage: the flaw that the model has to find after it, or none if the tables stay sound.
pub struct Damage {
    pub label: &'static str,
    pub flaw: Option<Flaw>,
    /// The changes, if there is a place for this damage in the tables.
    pub make: fn(&mut Damager) -> Option<Vec<Change>>,
}

const fn unsound(label: &'static str, flaw: Flaw, make: fn(&mut Damager) -> Option<Vec<Change>>) -> Damage {
    Damage { label, flaw: Some(flaw), make }
}

const fn sound(label: &'static str, make: fn(&mut Damager) -> Option<Vec<Change>>) -> Damage {
    Damage { label, flaw: None, make }
}

/// Every condition of soundness, and then what stays sound.
pub const DAMAGES: &[Damage] = &[
    // Sizes and lengths.
    unsound("no words and no slots", Flaw::Sizes, |_| Some(vec![Change::WordsLength(0), Change::SlotsLength(0)])),
    unsound("no words", Flaw::Sizes, |_| Some(vec![Change::WordsLength(0)])),
    unsound("one word", Flaw::Sizes, |_| Some(vec![Change::WordsLength(1)])),
    unsound("two to seven words", Flaw::Lengths, |d| Some(vec![Change::WordsLength(d.rng.between(header::LOCKS + 1, header::WIDTH - 1))])),
    unsound("eight words", Flaw::Lengths, |_| Some(vec![Change::WordsLength(header::WIDTH)])),
    unsound("a word short", Flaw::Lengths, |d| d.words_length(-1)),
    unsound("a word over", Flaw::Lengths, |d| d.words_length(1)),
    unsound("a lock record over", Flaw::Lengths, |d| d.words_length(lock::WIDTH as isize)),
    unsound("no slots", Flaw::Lengths, |d| d.slots_length(-(d.tables.slots.len() as isize))),
    unsound("a slot byte short", Flaw::Lengths, |d| d.slots_length(-1)),
    unsound("a slot byte over", Flaw::Lengths, |d| d.slots_length(1)),
    unsound("a slot over", Flaw::Lengths, |d| d.slots_length(SLOT_BYTES as isize)),
    unsound("R 0", Flaw::Sizes, |_| word(header::RESOURCES, 0)),
    unsound("R 257", Flaw::Sizes, |_| word(header::RESOURCES, MOST_RESOURCES + 1)),
    unsound("R 2 ^ 32 - 1", Flaw::Sizes, |_| word(header::RESOURCES, MOST)),
    unsound("R one more", Flaw::Lengths, |d| word(header::RESOURCES, Some(d.state.most_resources + 1).filter(|r| *r <= MOST_RESOURCES)?)),
    unsound("R one less", Flaw::Lengths, |d| word(header::RESOURCES, Some(d.state.most_resources - 1).filter(|r| *r >= 1)?)),
    unsound("L 0", Flaw::Sizes, |_| word(header::LOCKS, 0)),
    unsound("L 1,025", Flaw::Sizes, |_| word(header::LOCKS, MOST_LOCKS + 1)),
    unsound("L 2 ^ 32 - 1", Flaw::Sizes, |_| word(header::LOCKS, MOST)),
    unsound("L one more", Flaw::Lengths, |d| word(header::LOCKS, Some(d.state.most_locks + 1).filter(|l| *l <= MOST_LOCKS)?)),
    unsound("L one less", Flaw::Lengths, |d| word(header::LOCKS, Some(d.state.most_locks - 1).filter(|l| *l >= 1)?)),
    // The word given as zero.
    unsound("word 7 isn't zero", Flaw::NotZero, |d| word(header::ZERO, d.above_zero())),
    // Indices.
    unsound("first free resource beyond R", Flaw::Index, |d| word(header::FREE_RESOURCE, d.beyond(d.state.most_resources))),
    unsound("first free lock beyond L", Flaw::Index, |d| word(header::FREE_LOCK, d.beyond_locks())),
    unsound("first denied lock beyond L", Flaw::Index, |d| word(header::DENIED, d.beyond_locks())),
    unsound("first blocked lock beyond L", Flaw::Index, |d| word(header::BLOCKED, d.beyond_locks())),
    unsound("first notice beyond L", Flaw::Index, |d| word(header::NOTICE, d.beyond_locks())),
    unsound("a free resource's next beyond R", Flaw::Index, |d| d.free_word(resource::NEXT, |d| d.beyond(d.state.most_resources))),
    unsound("a used resource's next beyond R", Flaw::Index, |d| d.used_word(resource::NEXT, |d| d.beyond(d.state.most_resources))),
    unsound("a grant head beyond L", Flaw::Index, |d| d.used_word(resource::GRANT, Damager::beyond_locks)),
    unsound("a convert head beyond L", Flaw::Index, |d| d.used_word(resource::CONVERT, Damager::beyond_locks)),
    unsound("a wait head beyond L", Flaw::Index, |d| d.used_word(resource::WAIT, Damager::beyond_locks)),
    unsound("a home link beyond L", Flaw::Index, |d| d.any_lock_word(lock::HOME, Damager::beyond_locks)),
    unsound("a blocked link beyond L", Flaw::Index, |d| d.any_lock_word(lock::BLOCKED, Damager::beyond_locks)),
    unsound("a notice link beyond L", Flaw::Index, |d| d.any_lock_word(lock::NOTICE, Damager::beyond_locks)),
    unsound("a lock's resource beyond R", Flaw::Index, |d| d.any_lock_word(lock::RESOURCE, |d| d.beyond(d.state.most_resources))),
    // Chains that don't end.
    unsound("free resources in a circle", Flaw::Endless, |d| d.circle(Kind::FreeResources)),
    unsound("free locks in a circle", Flaw::Endless, |d| d.circle(Kind::FreeLocks)),
    unsound("denied locks in a circle", Flaw::Endless, |d| d.circle(Kind::Denied)),
    unsound("blocked locks in a circle", Flaw::Endless, |d| d.circle(Kind::Blocked)),
    unsound("notices in a circle", Flaw::Endless, |d| d.circle(Kind::Notices)),
    unsound("granted locks in a circle", Flaw::Endless, |d| d.circle(Kind::Grant)),
    unsound("converting locks in a circle", Flaw::Endless, |d| d.circle(Kind::Convert)),
    unsound("waiting locks in a circle", Flaw::Endless, |d| d.circle(Kind::Wait)),
    unsound("a lock after itself", Flaw::Endless, |d| d.after_itself()),
    // Resources.
    unsound("a free resource off the chain", Flaw::NameLength, |d| d.drop_last(Kind::FreeResources)),
    unsound("a used resource on the free chain", Flaw::FreeResource, |d| d.free_and_used()),
    unsound("a free resource with a granted lock", Flaw::FreeResource, |d| d.free_word(resource::GRANT, Damager::a_lock)),
    unsound("a free resource with a converting lock", Flaw::FreeResource, |d| d.free_word(resource::CONVERT, Damager::a_lock)),
    unsound("a free resource with a waiting lock", Flaw::FreeResource, |d| d.free_word(resource::WAIT, Damager::a_lock)),
    unsound("a free resource has taken a free lock", Flaw::FreeResource, |d| d.free_takes_lock()),
    unsound("a free resource with a name's length", Flaw::FreeResource, |d| {
        d.free_word(resource::NAME_LENGTH, |d| d.up_to(NAME_BYTES as u32))
    }),
    unsound("a free resource is valid", Flaw::FreeResource, |d| d.free_word(resource::VALIDITY, |_| 1)),
    unsound("a free resource that counts NL", Flaw::FreeResource, |d| d.free_word(resource::COUNTS[0], Damager::above_zero)),
    unsound("a free resource that counts CR", Flaw::FreeResource, |d| d.free_word(resource::COUNTS[1], Damager::above_zero)),
    unsound("a free resource that counts CW", Flaw::FreeResource, |d| d.free_word(resource::COUNTS[2], Damager::above_zero)),
    unsound("a free resource that counts PR", Flaw::FreeResource, |d| d.free_word(resource::COUNTS[3], Damager::above_zero)),
    unsound("a free resource that counts PW", Flaw::FreeResource, |d| d.free_word(resource::COUNTS[4], Damager::above_zero)),
    unsound("a free resource that counts EX", Flaw::FreeResource, |d| d.free_word(resource::COUNTS[5], Damager::above_zero)),
    unsound("a free slot with a name byte", Flaw::FreeResource, |d| d.free_byte(0..NAME_BYTES)),
    unsound("a free slot with a value byte", Flaw::FreeResource, |d| d.free_byte(NAME_BYTES..SLOT_BYTES)),
    unsound("a used resource with a next", Flaw::UsedNext, |d| d.used_word(resource::NEXT, |d| d.up_to(d.state.most_resources))),
    unsound("a name of no bytes", Flaw::NameLength, |d| d.used_word(resource::NAME_LENGTH, |_| 0)),
    unsound("a name of 65 bytes", Flaw::NameLength, |d| d.used_word(resource::NAME_LENGTH, |_| NAME_BYTES as u32 + 1)),
    unsound("a name of 2 ^ 32 - 1 bytes", Flaw::NameLength, |d| d.used_word(resource::NAME_LENGTH, |_| MOST)),
    unsound("a byte right after the name", Flaw::AfterName, |d| d.byte_after_name(|length| length)),
    unsound("a byte at the end of the name's field", Flaw::AfterName, |d| d.byte_after_name(|_| NAME_BYTES - 1)),
    unsound("a name longer than its length", Flaw::AfterName, |d| d.cut_name()),
    unsound("validity 2", Flaw::Validity, |d| d.used_word(resource::VALIDITY, |_| 2)),
    unsound("validity 2 ^ 32 - 1", Flaw::Validity, |d| d.used_word(resource::VALIDITY, |_| MOST)),
    unsound("two equal names", Flaw::SameName, |d| d.same_name(NAME_BYTES)),
    unsound("two equal names that differed in one byte", Flaw::SameName, |d| d.same_name(1)),
    unsound("a resource taken for no lock", Flaw::NoLocks, |d| d.name_without_locks()),
    unsound("a used resource with no heads", Flaw::NoLocks, |d| d.no_heads()),
    // Home chains.
    unsound("a home chain goes on into another", Flaw::TwoHomes, |d| d.shared_tail()),
    unsound("two heads name one lock", Flaw::TwoHomes, |d| d.shared_head()),
    unsound("a free lock on no chain", Flaw::NoHome, |d| d.drop_last(Kind::FreeLocks)),
    unsound("a denied lock on no chain", Flaw::NoHome, |d| d.drop_last(Kind::Denied)),
    unsound("a granted lock on no chain", Flaw::NoHome, |d| d.drop_last(Kind::Grant)),
    unsound("a converting lock on no chain", Flaw::NoHome, |d| d.drop_last(Kind::Convert)),
    unsound("a waiting lock on no chain", Flaw::NoHome, |d| d.drop_last(Kind::Wait)),
    unsound("a free lock with state 5", Flaw::State, |d| d.free_lock_word(lock::STATE, |_| 5)),
    unsound("a lock in use with state 5", Flaw::State, |d| d.lock_word(|_| true, lock::STATE, |_| 5)),
    unsound("a free lock that says granted", Flaw::State, |d| d.free_lock_word(lock::STATE, |_| 1)),
    unsound("a granted lock that says free", Flaw::State, |d| d.lock_word(granted, lock::STATE, |_| 0)),
    unsound("a granted lock that says converting", Flaw::State, |d| d.lock_word(granted, lock::STATE, |_| 2)),
    unsound("a converting lock that says waiting", Flaw::State, |d| d.lock_word(converting, lock::STATE, |_| 3)),
    unsound("a waiting lock that says granted", Flaw::State, |d| d.lock_word(waiting, lock::STATE, |_| 1)),
    unsound("a waiting lock that says denied", Flaw::State, |d| d.lock_word(waiting, lock::STATE, |_| 4)),
    unsound("a denied lock that says waiting", Flaw::State, |d| d.lock_word(denied, lock::STATE, |_| 3)),
    unsound("a granted lock with no resource", Flaw::OtherResource, |d| d.lock_word(granted, lock::RESOURCE, |_| 0)),
    unsound("a converting lock with no resource", Flaw::OtherResource, |d| d.lock_word(converting, lock::RESOURCE, |_| 0)),
    unsound("a waiting lock with no resource", Flaw::OtherResource, |d| d.lock_word(waiting, lock::RESOURCE, |_| 0)),
    unsound("a granted lock with another's resource", Flaw::OtherResource, |d| d.other_resource(granted)),
    unsound("a converting lock with another's resource", Flaw::OtherResource, |d| d.other_resource(converting)),
    unsound("a waiting lock with another's resource", Flaw::OtherResource, |d| d.other_resource(waiting)),
    // Free and denied locks.
    unsound("a free lock with a blocked link", Flaw::FreeLock, |d| d.free_lock_word(lock::BLOCKED, Damager::a_lock)),
    unsound("a free lock with a notice link", Flaw::FreeLock, |d| d.free_lock_word(lock::NOTICE, Damager::a_lock)),
    unsound("a free lock with a resource", Flaw::OtherResource, |d| d.free_lock_word(lock::RESOURCE, |d| d.up_to(d.state.most_resources))),
    unsound("a free lock with a client", Flaw::FreeLock, |d| d.free_lock_word(lock::CLIENT, |d| d.up_to(MOST_CLIENT))),
    unsound("a free lock with a held mode", Flaw::FreeLock, |d| d.free_lock_word(lock::HELD, |d| d.up_to(5))),
    unsound("a free lock with an asked mode", Flaw::FreeLock, |d| d.free_lock_word(lock::ASKED, |d| d.up_to(5))),
    unsound("a free lock with a completion", Flaw::FreeLock, |d| d.free_lock_word(lock::COMPLETION, |d| d.up_to(3))),
    unsound("a free lock with a mark", Flaw::FreeLock, |d| d.free_lock_word(lock::MARK, Damager::a_mark)),
    unsound("a denied lock with a resource", Flaw::OtherResource, |d| {
        d.lock_word(denied, lock::RESOURCE, |d| d.up_to(d.state.most_resources))
    }),
    unsound("a denied lock with a held mode", Flaw::Held, |d| d.lock_word(denied, lock::HELD, |d| d.up_to(5))),
    unsound("a denied lock with an asked mode", Flaw::Asked, |d| d.lock_word(denied, lock::ASKED, |d| d.up_to(5))),
    unsound("a denied lock with completion 0", Flaw::Completion, |d| d.lock_word(denied, lock::COMPLETION, |_| 0)),
    unsound("a denied lock with completion 1", Flaw::Completion, |d| d.lock_word(denied, lock::COMPLETION, |_| 1)),
    unsound("a denied lock with completion 3", Flaw::Completion, |d| d.lock_word(denied, lock::COMPLETION, |_| 3)),
    unsound("a denied lock with a mark", Flaw::Mark, |d| d.lock_word(denied, lock::MARK, Damager::a_mark)),
    unsound("a denied lock with mark 6", Flaw::Mark, |d| d.lock_word(denied, lock::MARK, |_| 6)),
    // Locks in use.
    unsound("a granted lock with an asked mode", Flaw::Asked, |d| d.lock_word(granted, lock::ASKED, |d| d.up_to(5))),
    unsound("a granted lock with completion 2", Flaw::Completion, |d| d.lock_word(granted, lock::COMPLETION, |_| 2)),
    unsound("a granted lock with completion 4", Flaw::Completion, |d| d.lock_word(granted, lock::COMPLETION, |_| 4)),
    unsound("a converting lock with a completion", Flaw::Completion, |d| d.give_completion(quiet_converting)),
    unsound("a converting lock with a mark and a completion", Flaw::Completion, |d| {
        d.lock_word(marked_converting, lock::COMPLETION, Damager::a_completion)
    }),
    unsound("a waiting lock with a completion", Flaw::Completion, |d| d.give_completion(waiting)),
    unsound("a waiting lock with a mark and its notice", Flaw::Mark, |d| d.give_mark(waiting, Damager::a_mark)),
    unsound("a waiting lock with a mark and no notice", Flaw::Mark, |d| d.lock_word(waiting, lock::MARK, Damager::a_mark)),
    unsound("a granted lock with mark 6", Flaw::Mark, |d| d.give_mark(quiet, |_| 6)),
    unsound("a granted lock with mark 2 ^ 32 - 1", Flaw::Mark, |d| d.lock_word(marked, lock::MARK, |_| MOST)),
    unsound("a granted lock with a completion and mark 6", Flaw::Mark, |d| d.lock_word(unread, lock::MARK, |_| 6)),
    unsound("a converting lock with mark 6", Flaw::Mark, |d| d.give_mark(quiet_converting, |_| 6)),
    unsound("a converting lock with mark 2 ^ 32 - 1", Flaw::Mark, |d| d.lock_word(marked_converting, lock::MARK, |_| MOST)),
    unsound("a waiting lock with a held mode", Flaw::Held, |d| d.lock_word(waiting, lock::HELD, |d| d.up_to(5))),
    unsound("a granted lock of client 0", Flaw::Client, |d| d.lock_word(granted, lock::CLIENT, |_| 0)),
    unsound("a granted lock of client 256", Flaw::Client, |d| d.lock_word(granted, lock::CLIENT, |_| MOST_CLIENT + 1)),
    unsound("a converting lock of client 0", Flaw::Client, |d| d.lock_word(converting, lock::CLIENT, |_| 0)),
    unsound("a converting lock of client 256", Flaw::Client, |d| d.lock_word(converting, lock::CLIENT, |_| MOST_CLIENT + 1)),
    unsound("a waiting lock of client 0", Flaw::Client, |d| d.lock_word(waiting, lock::CLIENT, |_| 0)),
    unsound("a waiting lock of client 256", Flaw::Client, |d| d.lock_word(waiting, lock::CLIENT, |_| MOST_CLIENT + 1)),
    unsound("a denied lock of client 0", Flaw::Client, |d| d.lock_word(denied, lock::CLIENT, |_| 0)),
    unsound("a denied lock of client 256", Flaw::Client, |d| d.lock_word(denied, lock::CLIENT, |_| MOST_CLIENT + 1)),
    unsound("a lock of client 2 ^ 32 - 1", Flaw::Client, |d| d.lock_word(|_| true, lock::CLIENT, |_| MOST)),
    unsound("a granted lock with held mode 6", Flaw::Mode, |d| d.lock_word(granted, lock::HELD, |_| 6)),
    unsound("a converting lock with held mode 6", Flaw::Mode, |d| d.lock_word(converting, lock::HELD, |_| 6)),
    unsound("a waiting lock with held mode 6", Flaw::Mode, |d| d.lock_word(waiting, lock::HELD, |_| 6)),
    unsound("a denied lock with held mode 6", Flaw::Mode, |d| d.lock_word(denied, lock::HELD, |_| 6)),
    unsound("a granted lock with asked mode 6", Flaw::Mode, |d| d.lock_word(granted, lock::ASKED, |_| 6)),
    unsound("a converting lock with asked mode 6", Flaw::Mode, |d| d.lock_word(converting, lock::ASKED, |_| 6)),
    unsound("a waiting lock with asked mode 6", Flaw::Mode, |d| d.lock_word(waiting, lock::ASKED, |_| 6)),
    unsound("a denied lock with asked mode 6", Flaw::Mode, |d| d.lock_word(denied, lock::ASKED, |_| 6)),
    // The blocked and the notice chain.
    unsound("a blocked lock off the blocked chain", Flaw::Blocked, |d| d.take_off(Kind::Blocked, |_| true)),
    unsound("a granted lock on the blocked chain", Flaw::Blocked, |d| d.put_on(Kind::Blocked, granted)),
    unsound("a denied lock on the blocked chain", Flaw::Blocked, |d| d.put_on(Kind::Blocked, denied)),
    unsound("a completion off the notice chain", Flaw::Notices, |d| d.take_off(Kind::Notices, |lock| lock.completion() != 0)),
    unsound("a granted lock's mark off the notice chain", Flaw::Notices, |d| d.take_off(Kind::Notices, marked)),
    unsound("a converting lock's mark off the notice chain", Flaw::Notices, |d| d.take_off(Kind::Notices, marked_converting)),
    unsound("a completion that came and no notice", Flaw::Notices, |d| d.lock_word(quiet, lock::COMPLETION, |_| 1)),
    unsound("a granted lock's mark that came and no notice", Flaw::Notices, |d| d.lock_word(quiet, lock::MARK, Damager::a_mark)),
    unsound("a converting lock's mark that came and no notice", Flaw::Notices, |d| {
        d.lock_word(quiet_converting, lock::MARK, Damager::a_mark)
    }),
    unsound("a completion that went and its notice stayed", Flaw::Notices, |d| {
        d.lock_word(|lock| unread(lock) && lock.mark.is_none(), lock::COMPLETION, |_| 0)
    }),
    unsound("a granted lock's mark that went and its notice stayed", Flaw::Notices, |d| d.lock_word(marked, lock::MARK, |_| 0)),
    unsound("a converting lock's mark that went and its notice stayed", Flaw::Notices, |d| {
        d.lock_word(marked_converting, lock::MARK, |_| 0)
    }),
    unsound("a granted lock with no completion and no mark on the notice chain", Flaw::Notices, |d| d.put_on(Kind::Notices, quiet)),
    unsound("a converting lock with no mark on the notice chain", Flaw::Notices, |d| d.put_on(Kind::Notices, quiet_converting)),
    unsound("a waiting lock on the notice chain", Flaw::Notices, |d| d.put_on(Kind::Notices, waiting)),
    unsound("a free lock on the blocked chain", Flaw::Blocked, |d| d.free_lock_on(Kind::Blocked)),
    unsound("a free lock on the notice chain", Flaw::Notices, |d| d.free_lock_on(Kind::Notices)),
    unsound("a granted lock with a blocked link", Flaw::BlockedLink, |d| d.lock_word(granted, lock::BLOCKED, Damager::a_lock)),
    unsound("a denied lock with a blocked link", Flaw::BlockedLink, |d| d.lock_word(denied, lock::BLOCKED, Damager::a_lock)),
    unsound("a granted lock with no completion, no mark and a notice link", Flaw::NoticeLink, |d| {
        d.lock_word(quiet, lock::NOTICE, Damager::a_lock)
    }),
    unsound("a converting lock with no mark and a notice link", Flaw::NoticeLink, |d| {
        d.lock_word(quiet_converting, lock::NOTICE, Damager::a_lock)
    }),
    unsound("a waiting lock with a notice link", Flaw::NoticeLink, |d| d.lock_word(waiting, lock::NOTICE, Damager::a_lock)),
    // Counts.
    unsound("an NL lock too many counted", Flaw::Count, |d| d.count_more(Mode::Nl)),
    unsound("a CR lock too many counted", Flaw::Count, |d| d.count_more(Mode::Cr)),
    unsound("a CW lock too many counted", Flaw::Count, |d| d.count_more(Mode::Cw)),
    unsound("a PR lock too many counted", Flaw::Count, |d| d.count_more(Mode::Pr)),
    unsound("a PW lock too many counted", Flaw::Count, |d| d.count_more(Mode::Pw)),
    unsound("an EX lock too many counted", Flaw::Count, |d| d.count_more(Mode::Ex)),
    unsound("an NL lock not counted", Flaw::Count, |d| d.count_fewer(Mode::Nl)),
    unsound("a CR lock not counted", Flaw::Count, |d| d.count_fewer(Mode::Cr)),
    unsound("a CW lock not counted", Flaw::Count, |d| d.count_fewer(Mode::Cw)),
    unsound("a PR lock not counted", Flaw::Count, |d| d.count_fewer(Mode::Pr)),
    unsound("a PW lock not counted", Flaw::Count, |d| d.count_fewer(Mode::Pw)),
    unsound("an EX lock not counted", Flaw::Count, |d| d.count_fewer(Mode::Ex)),
    unsound("a count of 2 ^ 32 - 1", Flaw::Count, |d| d.other_count(|_, _| MOST)),
    unsound("a count that is true in its low 16 bits", Flaw::Count, |d| d.other_count(|_, count| count + (1 << 16))),
    unsound("a count with a high bit more", Flaw::Count, |d| d.other_count(|d, count| count + (1 << d.rng.between(10, 31)))),
    unsound("a count of 2 ^ 32 - 1, and another of one too many", Flaw::Count, |d| d.count_around()),
    unsound("a lock counted by another mode than it holds", Flaw::Count, |d| d.count_other_mode()),
    unsound("two counts exchanged", Flaw::Count, |d| d.swap_counts()),
    unsound("the counts of two resources exchanged", Flaw::Count, |d| d.swap_all_counts()),
    unsound("no lock counted", Flaw::Count, |d| d.count_nobody()),
    unsound("converting locks not counted", Flaw::Count, |d| d.count_granted()),
    unsound("a converting lock counted by its asked mode", Flaw::Count, |d| d.count_asked(converting)),
    unsound("a waiting lock counted by its asked mode", Flaw::Count, |d| d.count_asked(waiting)),
    unsound("a waiting lock counted as NL", Flaw::Count, |d| d.count_waiting()),
    unsound("another held mode than is counted", Flaw::Count, |d| d.held_uncounted()),
    // Held modes, as counted.
    unsound("held modes CR and EX", Flaw::Clash, |d| d.clash(Mode::Cr, Mode::Ex, |_| true)),
    unsound("held modes CW and PR", Flaw::Clash, |d| d.clash(Mode::Cw, Mode::Pr, |_| true)),
    unsound("held modes CW and PW", Flaw::Clash, |d| d.clash(Mode::Cw, Mode::Pw, |_| true)),
    unsound("held modes CW and EX", Flaw::Clash, |d| d.clash(Mode::Cw, Mode::Ex, |_| true)),
    unsound("held modes PR and PW", Flaw::Clash, |d| d.clash(Mode::Pr, Mode::Pw, |_| true)),
    unsound("held modes PR and EX", Flaw::Clash, |d| d.clash(Mode::Pr, Mode::Ex, |_| true)),
    unsound("held modes PW and PW", Flaw::Clash, |d| d.clash(Mode::Pw, Mode::Pw, |_| true)),
    unsound("held modes PW and EX", Flaw::Clash, |d| d.clash(Mode::Pw, Mode::Ex, |_| true)),
    unsound("held modes EX and EX", Flaw::Clash, |d| d.clash(Mode::Ex, Mode::Ex, |_| true)),
    unsound("a converting lock's held mode clashes", Flaw::Clash, |d| d.clash(Mode::Pr, Mode::Cw, converting)),
    // Heads.
    unsound("a grantable convert head", Flaw::ConvertHead, |d| d.ease_convert_head()),
    unsound("a convert head kept waiting by its own mode alone", Flaw::ConvertHead, |d| d.own_mode_alone()),
    unsound("a convert head whose holders gave way", Flaw::ConvertHead, |d| d.give_way(|queues| queues.converting.front())),
    unsound("a grantable wait head", Flaw::WaitHead, |d| d.ease_wait_head()),
    unsound("a wait head whose holders gave way", Flaw::WaitHead, |d| {
        d.give_way(|queues| queues.waiting.front().filter(|_| queues.converting.is_empty()))
    }),
    unsound("a wait head whose last conversion is gone", Flaw::WaitHead, |d| d.restore_conversion()),
    // What stays sound.
    sound("nothing is changed", |_| Some(Vec::new())),
    sound("free resources in another order", |d| d.swap_neighbours(Kind::FreeResources)),
    sound("free locks in another order", |d| d.swap_neighbours(Kind::FreeLocks)),
    sound("denied locks in another order", |d| d.swap_neighbours(Kind::Denied)),
    sound("blocked locks in another order", |d| d.swap_neighbours(Kind::Blocked)),
    sound("notices in another order", |d| d.swap_neighbours(Kind::Notices)),
    sound("granted locks in another order", |d| d.swap_neighbours(Kind::Grant)),
    sound("converting locks behind the head in another order", |d| d.swap_neighbours(Kind::Convert)),
    sound("waiting locks in another order", |d| d.swap_neighbours(Kind::Wait)),
    sound("a granted lock with a completion and its notice", |d| d.give_completion(quiet)),
    sound("a granted lock with a mark and its notice", |d| d.give_mark(quiet, Damager::a_mark)),
    sound("a converting lock with a mark and its notice", |d| d.give_mark(quiet_converting, Damager::a_mark)),
    sound("a completion beside a mark", |d| d.lock_word(marked, lock::COMPLETION, Damager::a_completion)),
    sound("a mark beside a completion", |d| d.lock_word(unread, lock::MARK, Damager::a_mark)),
    sound("another completion of a granted lock", |d| d.other_completion()),
    sound("another mark", |d| d.other_mark()),
    sound("a conversion behind the head that asks for less", |d| d.ask_for_less()),
    sound("a conversion behind the head that asks for what it holds", |d| d.ask_for_same()),
    sound("another held mode", |d| d.other_held()),
    sound("another client", |d| d.lock_word(|_| true, lock::CLIENT, |d| d.up_to(MOST_CLIENT))),
    sound("another client of a denied lock", |d| d.lock_word(denied, lock::CLIENT, |d| d.up_to(MOST_CLIENT))),
    sound("another value byte", |d| d.value_byte()),
    sound("another validity", |d| d.turn_validity()),
    sound("another name byte", |d| d.other_name()),
];

/// The flaw that a damage of some label leads to, or none where the tables stay sound.
pub fn promised(label: &str) -> Option<Option<Flaw>> {
    DAMAGES.iter().find(|damage| damage.label == label).map(|damage| damage.flaw)
}

#[cfg(test)]
mod tests {
    use super::*;
    use crate::manager::{Flat, Manager, Tables};
    use crate::rng::Rng;
    use crate::states::{self, Filling};
    use model::State;
    use std::collections::BTreeMap;

    /// Tries each damage on a state, and holds what the model and flat say of it against its promise. Counts those for which there was a place.
    fn try_all(rng: &mut Rng, state: &State, made: &mut BTreeMap<&str, u32>) {
        let (words, slots) = state.to_tables();
        let tables = Tables { words, slots };
        for damage in DAMAGES {
            let mut damager = Damager { rng, tables: &tables, state };
            let Some(changes) = damager.named(damage) else { continue };
            let mut damaged = tables.clone();
            crate::call::damage(&mut damaged, &changes.list);
            let found = State::read_tables(&damaged.words, &damaged.slots).err();
            assert_eq!(found, damage.flaw, "{changes} of {tables:?}");
            assert_eq!(Flat.sound(&damaged), u32::from(found.is_none()), "{changes} of {tables:?}");
            *made.entry(damage.label).or_default() += 1;
        }
    }

    #[test]
    fn each_damage_does_what_it_says() {
        let mut rng = Rng::new(11);
        let names: Vec<Vec<u8>> = [b"a".to_vec(), b"b".to_vec(), b"a\0".to_vec(), b"ab".to_vec(), vec![b'n'; NAME_BYTES]].to_vec();
        let mut made = BTreeMap::new();
        for _ in 0..400 {
            let (resources, locks) = (rng.between(1, 6) as u32, rng.between(1, 14) as u32);
            let state = states::random(&mut rng, &Filling { resources, locks, clients: &[1, 2, 255], names: &names, used: None });
            try_all(&mut rng, &state, &mut made);
        }
        assert_eq!(made.len(), DAMAGES.len(), "each has a label of its own, and a place in some state");
    }

    /// Where a place is chosen at random, it may be none, but not often.
    #[test]
    fn each_damage_has_a_place_in_the_varied_state() {
        let mut made = BTreeMap::new();
        (0..40).for_each(|seed| try_all(&mut Rng::new(seed), &states::varied(), &mut made));
        assert!(DAMAGES.iter().all(|damage| made.get(damage.label).is_some_and(|times| *times >= 10)), "{made:?}");
    }

    #[test]
    fn every_flaw_is_promised() {
        assert!(Flaw::ALL.iter().all(|flaw| DAMAGES.iter().any(|damage| damage.flaw == Some(*flaw))));
    }
}
