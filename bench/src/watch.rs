use crate::apart::Apart;
use crate::calls::Calls;
use crate::signals;
use crate::switches::Switches;
use crate::waits;
use std::time::{Duration, Instant};

/// Watches the calls of the thread that made it, one after the other.
pub trait Watch {
    fn begin() -> Self;

    /// To be called at the end of each call.
    fn done(&mut self);

    fn calls(self) -> Box<Apart<Calls>>;
}

/// Watches nothing.
pub struct Blind;

impl Watch for Blind {
    fn begin() -> Blind {
        Blind
    }

    #[inline(always)]
    fn done(&mut self) {}

    fn calls(self) -> Box<Apart<Calls>> {
        Box::default()
    }
}

/// In less time nobody loses a processor and gets it back.
const SHORT: Duration = Duration::from_micros(5);

/// Takes down how long each call takes, with its drawing and counting. It leaves out those during which the thread was suspended by a signal, or put
/// aside by the system while it waited for nobody.
pub struct Stopwatch {
    calls: Box<Apart<Calls>>,
    from: Instant,
    suspensions: u64,
    waits: u64,
    switches: Switches,
}

impl Stopwatch {
    /// Takes down a call that was long or interrupted.
    #[cold]
    fn weigh(&mut self, time: Duration) {
        let switches = Switches::now();
        let has_waited = switches.given > self.switches.given || waits::count() > self.waits;
        let was_put_aside = switches.taken > self.switches.taken && !has_waited;
        let was_suspended = signals::suspensions() > self.suspensions;
        if was_suspended {
            self.calls.0.suspended += time;
        }
        if was_suspended || was_put_aside {
            self.calls.0.left_out += 1;
        } else {
            self.calls.0.add(time);
        }
        self.switches = Switches::now();
        self.waits = waits::count();
        self.start();
    }

    /// Lets a call begin now, and not before the thread was suspended.
    fn start(&mut self) {
        loop {
            self.suspensions = signals::suspensions();
            self.from = Instant::now();
            if self.suspensions == signals::suspensions() {
                return;
            }
        }
    }
}

impl Watch for Stopwatch {
    fn begin() -> Stopwatch {
        let mut watch =
            Stopwatch { calls: Box::default(), from: Instant::now(), suspensions: 0, waits: waits::count(), switches: Switches::now() };
        watch.start();
        watch
    }

    #[inline(always)]
    fn done(&mut self) {
        let now = Instant::now();
        let time = now - self.from;
        if time >= SHORT || signals::suspensions() != self.suspensions {
            return self.weigh(time);
        }
        self.calls.0.add(time);
        self.waits = waits::count();
        self.from = now;
    }

    fn calls(self) -> Box<Apart<Calls>> {
        self.calls
    }
}
