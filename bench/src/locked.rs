//! Sets behind the locks of the standard library.
use crate::engine::{Seat, Set};
use crate::operation::{Answer, Change, Query, Update};
use crate::shared::Shareable;
use crate::sums::Sums;
use std::collections::BTreeMap;
use std::sync::{Mutex, RwLock};

impl<S: Set> Seat for &Mutex<S> {
    fn update(&mut self, update: Update) -> Change {
        self.lock().expect("no thread panics").update(update)
    }

    fn ask(&mut self, query: &Query) -> Answer {
        self.lock().expect("no thread panics").ask(query)
    }
}

impl<S: Set> Seat for &RwLock<S> {
    fn update(&mut self, update: Update) -> Change {
        self.write().expect("no thread panics").update(update)
    }

    fn ask(&mut self, query: &Query) -> Answer {
        self.read().expect("no thread panics").ask(query)
    }
}

impl Shareable for Mutex<Sums> {
    const NAME: &'static str = "mutex";
}

impl Shareable for RwLock<Sums> {
    const NAME: &'static str = "rwlock";
}

impl Shareable for RwLock<BTreeMap<u32, u32>> {
    const NAME: &'static str = "btree";
}
