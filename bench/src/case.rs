use crate::aside::Aside;
use crate::column::Column;
use crate::engines;
use crate::options::Options;
use crate::workload::Workload;
use std::fmt;
use std::time::Duration;

/// What is measured at a time.
#[derive(Debug, Clone, Copy)]
pub struct Case {
    pub workload: Workload,
    pub threads: usize,
    pub aside: Option<Aside>,
}

impl Case {
    pub fn new(workload: Workload, threads: usize) -> Case {
        Case { workload, threads, aside: None }
    }

    pub fn put_aside(aside: Aside) -> Case {
        Case { workload: Workload::Tenth, threads: aside.threads(), aside: Some(aside) }
    }

    /// How many processors it needs.
    pub fn processors(self) -> usize {
        if self.aside.is_some() { Aside::PROCESSORS } else { self.threads }
    }

    /// How long a turn is: longer if calls that last milliseconds have to show.
    fn length(self, options: &Options) -> Duration {
        if self.aside.is_some() { 10 * options.slice } else { options.slice }
    }

    /// Measures all engines, the trie first. They take turns, and another one begins each pass. To try that it is found out, an engine may get
    /// the name of another.
    pub fn measure(self, options: &Options) -> Result<Vec<Column>, String> {
        let mut entries = engines::all(self.threads, options.bytes, None);
        if let Some((one, other)) = options.renamed {
            entries[one].name = entries[other].name;
        }
        entries.retain(|entry| entry.is_put_aside || self.aside.is_none());
        let mut columns: Vec<Column> = entries.iter().map(Column::of).collect();
        for pass in 0..options.passes {
            for turn in 0..entries.len() {
                let at = (pass + turn) % entries.len();
                columns[at].add(entries[at].runner.slice(self, self.length(options), pass as u64))?;
            }
        }
        Ok(columns)
    }
}

impl fmt::Display for Case {
    fn fmt(&self, f: &mut fmt::Formatter<'_>) -> fmt::Result {
        if let Some(aside) = self.aside {
            return aside.fmt(f);
        }
        write!(f, "{}, {} thread{}", self.workload.name(), self.threads, if self.threads == 1 { "" } else { "s" })
    }
}
