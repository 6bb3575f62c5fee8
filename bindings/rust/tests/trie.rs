//! What the crate has of its own: intervals, iterators, slices of any length, threads, drops and misuses that its types let through. What each call answers is
//! in tests/rows.
use augtrie::{Again, Change, Error, Look, Put, Trie, User};
use std::collections::BTreeMap;
use std::mem::forget;
use std::ops::Bound;
use std::sync::atomic::{AtomicU32, Ordering::SeqCst};
use std::thread;

// So many that no test here fills the table, whatever the bits.
const PLENTY: u64 = 3 << 23;

const fn crosses<T: Send>() {}
const fn is_shared<T: Send + Sync + Clone>() {}
const _: () = (is_shared::<Trie>(), crosses::<User>(), crosses::<Look>(), is_shared::<Error>()).0;

/// Numbers that look drawn.
struct Drawn(u64);

impl Drawn {
    fn below(&mut self, end: u32) -> u32 {
        self.0 = self.0.wrapping_mul(6_364_136_223_846_793_005).wrapping_add(1);
        (((self.0 >> 32) * u64::from(end)) >> 32) as u32
    }
}

/// A trie of the fewest bytes, to the next power of 2. It is full again and again.
fn small(bits: u32, users: u32) -> Trie {
    (0..25).find_map(|power| Trie::new(bits, users, 1 << power).ok()).expect("so many bytes are plenty")
}

/// What an iterator lists, taken from either end at will. It counts down what is left, stays at its end, and goes on from where it was cloned.
fn from_both_ends(mut iter: augtrie::Iter, drawn: &mut Drawn) -> Vec<(u32, u32)> {
    let (mut front, mut back, mut cloned) = (Vec::new(), Vec::new(), None);
    let (cloned_at, kind) = (drawn.below(iter.len() as u32 + 1) as usize, drawn.below(3));
    for left in (0..=iter.len()).rev() {
        assert_eq!(iter.len(), left);
        if left == cloned_at {
            cloned = Some((iter.clone(), front.len()));
        }
        if kind == 0 || (kind == 1 && drawn.below(2) == 0) { front.extend(iter.next()) } else { back.extend(iter.next_back()) }
    }
    assert_eq!((iter.next(), iter.next_back(), iter.len()), (None, None, 0));
    front.extend(back.into_iter().rev());
    let (iter, at) = cloned.expect("it comes to each count");
    assert!(iter.clone().eq(front[at..][..cloned_at].iter().copied()) && iter.rev().eq(front[at..][..cloned_at].iter().rev().copied()));
    front
}

#[test]
fn intervals_are_those_of_a_map() -> Result<(), Error> {
    let mut drawn = Drawn(7);
    for bits in [1, 4, 9, 16] {
        let trie = Trie::new(bits, 1, PLENTY)?;
        let mut user = trie.user()?;
        let map: BTreeMap<u32, u32> = (0..300).map(|i| (drawn.below(1 << bits), i)).collect();
        for (key, weight) in &map {
            assert_eq!(user.put(*key, *weight), Ok(Put::Accepted));
        }
        let look = user.look()?;
        for _ in 0..200 {
            let [one, other] = [0; 2].map(|_| [0, u32::MAX, drawn.below(1 << (bits + 1))][drawn.below(8).min(2) as usize]);
            let (least, most) = (one.min(other), one.max(other));
            let from = [Bound::Included(least), Bound::Excluded(least), Bound::Unbounded][drawn.below(3) as usize];
            let to = [Bound::Included(most), Bound::Excluded(most), Bound::Unbounded][drawn.below(3) as usize];
            // The map takes no interval with one key that is left out at both ends.
            let has_any = least < most || !matches!((from, to), (Bound::Excluded(_), Bound::Excluded(_)));
            let members = if has_any { map.range((from, to)).map(|(key, weight)| (*key, *weight)).collect() } else { Vec::new() };
            let span = look.range((from, to));
            assert_eq!((span.count as usize, span.sum), (members.len(), members.iter().map(|pair| u64::from(pair.1)).sum()));
            assert_eq!((span.least, span.greatest), members.first().zip(members.last()).map_or((0, 0), |(a, b)| (a.0, b.0)));
            assert!(from_both_ends(look.keys((from, to)), &mut drawn) == members);
            if least < most {
                assert_eq!((look.range(most..least).count, look.keys(most..least).next()), (0, None));
            }
        }
        assert_eq!((look.range(..=u32::MAX).count, look.keys((Bound::Excluded(u32::MAX), Bound::Unbounded)).len()), (look.len(), 0));
        assert!(from_both_ends(look.into_iter(), &mut drawn).into_iter().eq(map));
    }
    Ok(())
}

#[test]
fn changes_go_on_from_where_they_were_cloned() -> Result<(), Error> {
    let trie = Trie::new(16, 2, PLENTY)?;
    let (mut one, mut other) = (trie.user()?, trie.user()?);
    for count in [0, 1, 31, 32, 33, 64, 65, 100] {
        let mut look = other.look()?;
        let want: Vec<Change> = (0..count).map(|i| Change { key: 655 * i, before: None, now: Some(i) }).collect();
        for change in &want {
            assert_eq!(one.put(change.key, change.now.expect("it is a member")), Ok(Put::Accepted));
        }
        assert_eq!(look.again(), Ok(Again::Comparable));
        for at in 0..want.len() {
            for mut iter in [look.changes(), look.changes_since(&[], &[])?] {
                assert!(iter.by_ref().take(at).eq(want[..at].iter().copied()) && iter.clone().eq(want[at..].iter().copied()));
                assert_eq!((iter.by_ref().count(), iter.next(), iter.next()), (want.len() - at, None, None));
            }
        }
        let keys: Vec<u32> = want.iter().map(|change| change.key).collect();
        assert_eq!(one.remove_all(&keys), Ok(count));
    }
    Ok(())
}

#[test]
fn slices_are_of_any_length_but_of_the_same() -> Result<(), Error> {
    let trie = Trie::new(4, 1, PLENTY)?;
    let mut user = trie.user()?;
    assert_eq!([user.put_all(&[3], &[]), user.put_all(&[3], &[1, 2]), user.put_all(&[], &[1])], [Err(Error::BadLength); 3]);
    assert_eq!(user.put_all(&[1, 2, 5], &[30, 40, 5]), Ok(3));
    let look = user.look()?;
    assert_eq!([look.changes_since(&[1, 2], &[1]).err(), look.changes_since(&[1], &[1, 2]).err()], [Some(Error::BadLength); 2]);
    // More keys than the trie has.
    let long: Vec<u32> = (0..100).map(|i| i % 20).collect();
    assert!(look.ranks(&long)?.into_iter().eq(long.iter().map(|key| look.rank(*key))));
    assert!(look.contains_all(&long)?.into_iter().eq(long.iter().map(|key| [1, 2, 5].contains(key))));
    assert!(look.weights(&long)?.into_iter().eq(long.iter().map(|key| look.get(*key))));
    Ok(())
}

/// Runs threads with a user each.
fn each(trie: &Trie, threads: u32, run: impl Fn(u32, User) + Sync) {
    thread::scope(|scope| {
        for i in 0..threads {
            let (user, run) = (trie.user().expect("a place is free"), &run);
            scope.spawn(move || run(i, user));
        }
    });
}

#[test]
fn a_removal_finds_a_member_whose_weight_others_change() -> Result<(), Error> {
    for trie in [small(4, 4), Trie::new(4, 4, PLENTY)?] {
        each(&trie, 4, |i, mut user| {
            for unit in 0..5_000 {
                // It is a member then, also if another user was quicker, and the first thread alone takes it out.
                assert!(user.put(5, unit).is_ok());
                assert!(i > 0 || user.remove(5).is_ok_and(|weight| weight.is_some()));
            }
        });
    }
    Ok(())
}

#[test]
fn users_come_and_go_in_six_threads_until_the_trie_is_closed() -> Result<(), Error> {
    for trie in [small(8, 4), Trie::new(8, 4, PLENTY)?] {
        let [inserts, removals, open, done] = [0; 4].map(AtomicU32::new);
        let work = |trie: Trie, seed| {
            let mut drawn = Drawn(seed);
            loop {
                let mut user = match trie.user() {
                    Ok(user) => user,
                    Err(Error::NoUser { users: 4 }) => continue,
                    Err(cause) => return cause,
                };
                assert!(open.fetch_add(1, SeqCst) < 4);
                for _ in 0..10 {
                    let key = drawn.below(256);
                    // Whatever is refused once the trie is closed changes nothing.
                    let (count, changed) = if drawn.below(2) == 0 { (&removals, user.remove(key).ok().flatten().is_some()) } else { (&inserts, user.insert(key) == Ok(true)) };
                    count.fetch_add(u32::from(changed), SeqCst);
                    assert!(user.look().map_or_else(|cause| cause == Error::Closed, |look| look.len() <= 256));
                }
                done.fetch_add(1, SeqCst);
                open.fetch_sub(1, SeqCst);
            }
        };
        let report = thread::scope(|scope| {
            let threads = Vec::from_iter((0..6).map(|seed| (trie.clone(), seed)).map(|(trie, seed)| scope.spawn(move || work(trie, seed))));
            while done.load(SeqCst) < 600 {
                thread::yield_now();
            }
            let report = trie.close();
            threads.into_iter().for_each(|thread| assert_eq!(thread.join().ok(), Some(Error::Closed)));
            report
        })?;
        let (inserts, removals) = (inserts.into_inner(), removals.into_inner());
        assert_eq!((report.inserts, report.removals, report.size), (inserts.into(), removals.into(), inserts - removals));
    }
    Ok(())
}

#[test]
fn a_look_outlives_its_trie_which_waits_for_none() -> Result<(), Error> {
    let trie = Trie::new(4, 2, PLENTY)?;
    let (mut user, other) = (trie.user()?, trie.user()?);
    assert_eq!((user.insert(3), trie.clone().bits()), (Ok(true), 4));
    let mut look = user.look()?;
    let closes = {
        let trie = trie.clone();
        thread::spawn(move || trie.close())
    };
    assert_eq!(closes.join().expect("it ends").map(|report| report.size), Ok(1));
    assert_eq!((trie.user().err(), trie.close().err(), trie.tend(), trie.bits()), (Some(Error::Closed), Some(Error::Closed), Err(Error::Closed), 4));
    drop((trie, other));
    for _ in 0..3 {
        assert_eq!((look.again(), look.insert(4), look.room()), (Err(Error::Closed), Err(Error::Closed), Err(Error::Closed)));
        assert!(look.iter().eq([(3, 3)]));
    }
    drop(look);
    assert_eq!(user.look().err(), Some(Error::Closed));
    // And the last trie that nobody closed.
    let trie = Trie::new(4, 1, PLENTY)?;
    let mut user = trie.user()?;
    let mut look = user.look()?;
    drop(trie);
    assert_eq!((look.insert(3), look.len()), (Ok(true), 0));
    drop(look);
    assert_eq!(user.look()?.get(3), Some(3));
    Ok(())
}

#[test]
fn a_look_that_was_forgotten_ends_with_the_next_one() -> Result<(), Error> {
    let trie = small(6, 2);
    let (mut user, mut other) = (trie.user()?, trie.user()?);
    assert_eq!(user.insert(3), Ok(true));
    forget(user.look()?);
    // Its user updates beside it.
    assert_eq!((user.insert(4), user.remove(4)), (Ok(true), Ok(Some(4))));
    assert_eq!([user.insert_all(&[3]), user.insert_all(&[]), user.put_all(&[], &[])], [Ok(0); 3]);
    assert_eq!(user.look()?.len(), 1);
    assert_eq!(user.insert(4), Ok(true));
    // Nor does one that was forgotten hold others up once its user looks again, or is gone.
    forget(user.look()?);
    forget(user.look()?);
    drop(user.look()?);
    for unit in 0..10_000 {
        assert!(other.add(unit % 64, 1).is_ok());
    }
    forget(user.look()?);
    drop(user);
    for unit in 0..10_000 {
        assert!(other.add(unit % 64, 1).is_ok());
    }
    assert_eq!(other.look()?.range(..).sum, 20_007);
    forget(other.look()?);
    drop(other);
    assert_eq!(trie.close()?.size, 64);
    Ok(())
}

#[test]
fn a_panic_ends_the_look_and_frees_the_place() -> Result<(), Error> {
    let trie = small(4, 1);
    let mut user = trie.user()?;
    assert_eq!((user.insert(3), trie.user().err()), (Ok(true), Some(Error::NoUser { users: 1 })));
    let fell = thread::spawn(move || {
        let look = user.look().expect("the trie is open");
        assert!(look.is_empty(), "it is not");
    });
    assert!(fell.join().is_err());
    let mut user = trie.user()?;
    for unit in 0..1_000 {
        assert_eq!(user.put(3, unit), Ok(Put::Replaced { before: unit.checked_sub(1).unwrap_or(3) }));
    }
    assert_eq!(trie.close()?.size, 1);
    Ok(())
}

/// Runs in a process of its own, which has less memory than tries ask for.
#[test]
#[ignore = "the test below runs it"]
fn with_little_memory() -> Result<(), Error> {
    let mut tries = Vec::new();
    let cause = loop {
        match Trie::new(16, 64, Trie::MOST_BYTES) {
            Ok(trie) => tries.push(trie),
            Err(cause) => break cause,
        }
    };
    assert_eq!(cause, Error::NoMemory);
    drop(tries);
    // These would need more than there is, if one of them stayed.
    for i in 0..1_000 {
        let trie = Trie::new(12, 2, 1 << 20)?;
        let mut user = trie.user()?;
        forget(user.look()?);
        if i % 2 == 0 { drop(trie) } else { drop(user) }
    }
    Ok(())
}

#[test]
#[cfg(target_os = "linux")]
fn a_refused_request_for_memory_has_a_name_and_nothing_stays_behind() {
    let program = std::env::current_exe().expect("it has a path");
    let mut command = std::process::Command::new("sh");
    command.args(["-c", "ulimit -v 300000 && exec \"$0\" --ignored --exact --test-threads=1 with_little_memory"]).arg(program);
    let said = command.output().expect("there is a shell");
    let text = String::from_utf8_lossy(&said.stdout);
    assert!(said.status.success() && text.contains("test result: ok. 1 passed"), "{text}");
}

#[test]
fn the_library_has_the_version_of_the_crate() {
    assert_eq!(augtrie::version(), env!("CARGO_PKG_VERSION"));
}

#[test]
fn errors_say_what_was_wrong() -> Result<(), Error> {
    let said = |bits, users, bytes| Trie::new(bits, users, bytes).err().map(|cause| cause.to_string()).unwrap_or_default();
    assert_eq!((said(17, 1, PLENTY), said(16, 65, PLENTY)), ("17 bits are outside 1 to 16".into(), "65 users are outside 1 to 64".into()));
    assert_eq!(said(16, 4, 0), "of 0 bytes, 11503440 are needed for 16 bits and 4 users");
    assert_eq!(said(16, 4, (3 << 29) + 1), "1610612737 bytes are more than 3 * 2^29");
    let bytes = Trie::least_bytes(4, 1)? - 1;
    assert_eq!(Trie::new(4, 1, bytes).err(), Some(Error::BadBytes { bytes, bits: 4, users: 1 }));
    assert_eq!((Trie::least_bytes(17, 1), Trie::least_bytes(16, 65)), (Err(Error::BadBits { bits: 17 }), Err(Error::BadUsers { users: 65 })));
    let trie = Trie::new(16, 2, PLENTY)?;
    let (mut user, other) = (trie.user()?, trie.user()?);
    let text = |cause: Option<Error>| cause.map(|cause| cause.to_string()).unwrap_or_default();
    assert_eq!(text(trie.user().err()), "all 2 users of the trie are open");
    let refused = [user.insert(70_000).err(), user.remove(70_000).err(), user.put(70_000, 1).err(), user.add(70_000, 1).err(), user.sub(70_000, 1).err()];
    assert_eq!(refused.map(text), ["key 70000 is not below 2^16"; 5]);
    let refused = [user.insert_all(&[3, 70_001, 70_002]).err(), user.remove_all(&[70_001]).err(), user.look()?.put_all(&[70_001], &[1]).err()];
    assert_eq!(refused.map(text), ["key 70001 is not below 2^16"; 3]);
    assert_eq!(text(user.look()?.changes_since(&[3, 9, 9], &[1, 1, 1]).err()), "key 9 is not above the one before it in the list");
    assert_eq!(text(user.put_all(&[1], &[]).err()), "there are more keys than 2^bits, or not as many weights as keys");
    drop(other);
    assert_eq!(text(trie.user().err()), "");
    Ok(())
}
