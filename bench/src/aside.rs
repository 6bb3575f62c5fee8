use std::fmt;

/// How threads are put aside while they work.
#[derive(Debug, Clone, Copy, PartialEq)]
pub enum Aside {
    /// Every 50 ms one of four threads, each on a processor of its own, is suspended for 20 ms.
    Suspended,
    /// 16 threads share four processors.
    Crowded,
}

impl Aside {
    pub const ALL: [Aside; 2] = [Aside::Suspended, Aside::Crowded];

    /// They have so many processors.
    pub const PROCESSORS: usize = 4;

    pub fn name(self) -> &'static str {
        match self {
            Aside::Suspended => "suspended",
            Aside::Crowded => "crowded",
        }
    }

    pub fn threads(self) -> usize {
        match self {
            Aside::Suspended => Aside::PROCESSORS,
            Aside::Crowded => 16,
        }
    }
}

impl fmt::Display for Aside {
    fn fmt(&self, f: &mut fmt::Formatter<'_>) -> fmt::Result {
        f.write_str(match self {
            Aside::Suspended => "one of 4 threads suspended",
            Aside::Crowded => "16 threads on 4 processors",
        })
    }
}
