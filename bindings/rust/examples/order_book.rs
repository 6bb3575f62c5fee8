//! An order book: the weight of a price is its volume, of bids below the middle and of offers above it. Four threads add volume and take it
//! away, two at the same prices each, and another one follows the book meanwhile.
use augtrie::{Again, Change, Error, Look, Trie, User};
use std::collections::BTreeMap;
use std::thread;

const MIDDLE: u32 = 2_000;
const LOOKS: u32 = 500;

// Adds 30 at each price, and takes away 10 of it, or all of it at each fifth price. Whoever trades beside leaves the own volume alone.
fn trade(user: &mut User, lowest: u32) -> Result<(), Error> {
    for price in lowest..lowest + 100 {
        user.add(price, 30)?;
        user.sub(price, if price % 5 == 0 { 30 } else { 10 })?;
    }
    Ok(())
}

// Whether a snapshot agrees with itself, and shows each price with what one or two threads have there.
fn agrees(book: &Look) -> bool {
    let (bids, offers) = (book.range(..MIDDLE), book.range(MIDDLE..));
    let volume: u64 = book.iter().map(|(_, volume)| u64::from(volume)).sum();
    let best = book.before(MIDDLE);
    bids.count + offers.count == book.len()
        && bids.sum + offers.sum == volume
        && best.is_none_or(|bid| bid == bids.greatest && book.range(bid..MIDDLE).sum == u64::from(book.get(bid).unwrap_or(0)))
        && book.iter().all(|(_, volume)| [20, 30, 40, 50, 60].contains(&volume))
}

// Follows the book from the empty one on, by what changed from one snapshot to the next, or since the copy where a new round of the table began in
// between: all changes together are the book.
fn follow(mut book: Look) -> Result<(), Error> {
    let mut copy = BTreeMap::new();
    for _ in 0..LOOKS {
        let again = book.again()?;
        let (prices, volumes): (Vec<u32>, Vec<u32>) = copy.iter().unzip();
        let changes = match again {
            Again::Comparable => book.changes(),
            Again::NothingToCompare => book.changes_since(&prices, &volumes)?,
        };
        for Change { key: price, before, now } in changes {
            assert_eq!(copy.get(&price).copied(), before);
            match now {
                Some(volume) => copy.insert(price, volume),
                None => copy.remove(&price),
            };
        }
        assert!(agrees(&book) && book.iter().eq(copy.iter().map(|(price, volume)| (*price, *volume))));
    }
    Ok(())
}

fn main() -> Result<(), Error> {
    let book = Trie::new(12, 5, 1 << 21)?;
    let mut user = book.user()?;
    thread::scope(|scope| {
        let empty = user.look()?;
        for lowest in [MIDDLE - 100, MIDDLE - 100, MIDDLE + 1, MIDDLE + 1] {
            let mut user = book.user()?;
            scope.spawn(move || trade(&mut user, lowest).expect("the book is open"));
        }
        // The traders do not wait for this look, which is taken again and again.
        follow(empty)
    })?;
    println!("each of {LOOKS} snapshots agreed with itself and with all changes up to it");
    let now = user.look()?;
    let (all, depth) = (now.range(..), now.range(1_950..MIDDLE));
    assert_eq!((all.count, all.sum), (160, 160 * 40));
    println!("{} prices, {} in all, {} from 1950 up to the middle", all.count, all.sum, depth.sum);
    println!("best bid {}, best offer {}", now.before(MIDDLE).unwrap_or(0), now.after(MIDDLE).unwrap_or(0));
    Ok(())
}
