use crate::engine::{Seat, Set};
use crate::operation::{Answer, Change, Query, Update};
use crate::shared::Shareable;
use crate::sums::Sums;
use crate::waits;
use arc_swap::ArcSwap;
use std::hint::spin_loop;
use std::sync::{Arc, Mutex};

/// Two copies of a set. Readers load the one that is shown without a lock. Writers take turns: one changes the other copy, shows it, waits
/// until no reader has the old one, and changes that too. So an update costs two changes, and no copy of the set.
#[derive(Default)]
pub struct Copies {
    shown: ArcSwap<Sums>,
    other: Mutex<Arc<Sums>>,
}

/// The copy to itself, once its last reader is done.
fn alone(copy: &mut Arc<Sums>) -> &mut Sums {
    while Arc::get_mut(copy).is_none() {
        waits::note();
        spin_loop();
    }
    Arc::get_mut(copy).expect("nobody can load it")
}

impl Seat for &Copies {
    fn update(&mut self, update: Update) -> Change {
        let mut other = self.other.lock().expect("no thread panics");
        let change = alone(&mut other).update(update);
        if change != Change::Nothing {
            let changed = other.clone();
            *other = self.shown.swap(changed);
            alone(&mut other).update(update);
        }
        change
    }

    fn ask(&mut self, query: &Query) -> Answer {
        self.shown.load().ask(query)
    }
}

impl Shareable for Copies {
    const NAME: &'static str = "copies";
}
