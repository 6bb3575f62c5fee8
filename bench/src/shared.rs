use crate::engine::{Engine, Seat};

/// What threads share by plain references, under locks.
pub trait Shareable: Default + Sync {
    const NAME: &'static str;
}

pub struct Shared<T>(T);

impl<T: Shareable> Engine for Shared<T>
where
    for<'t> &'t T: Seat,
{
    const NAME: &'static str = T::NAME;
    const LOCKS: bool = true;
    type Seat<'engine>
        = &'engine T
    where
        Self: 'engine;

    fn new(_: usize, _: u64) -> Shared<T> {
        Shared(T::default())
    }

    fn seats(&mut self, threads: usize) -> Vec<&T> {
        vec![&self.0; threads]
    }
}
