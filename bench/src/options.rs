use crate::aside::Aside;
use crate::case::Case;
use crate::workload::Workload;
use std::path::PathBuf;
use std::time::Duration;

/// In so many bytes each table has room for 64 updates of each thread, for as many threads as may be.
pub const LEAST_BYTES: u64 = 19 << 20;

/// What the command line asks for.
pub struct Options {
    pub check: bool,
    pub scaling: bool,
    pub without: Option<u32>,
    /// The engine of the first number gets the name of that of the second.
    pub renamed: Option<(usize, usize)>,
    pub passes: usize,
    pub slice: Duration,
    /// The table of the trie, and that of the plain one, takes at most so many.
    pub bytes: u64,
    pub workloads: Vec<Workload>,
    pub threads: Vec<usize>,
    pub asides: Vec<Aside>,
    pub into: PathBuf,
}

pub const USAGE: &str = "\
usage: bench/run [OPTION..]
  --into FOLDER       where throughput.md goes, and throughput.svg by bench/picture (bench/out if not given)
  --passes N          how often each engine gets its turn (9)
  --slice MS          how long a turn is, in milliseconds (100); where threads are put aside, it is ten times as long
  --bytes N           what the table of the trie may take, 19922944 to 805306368 (25165824)
  --workload NAME     updates, tenth, queries, batches, suspended or crowded alone
  --threads N         so many threads alone, and not 1, 2 and 4; where threads are put aside, there are 4 or 16 all the same
  --check             compares the answers of all engines, and measures nothing
  --scaling           measures queries of the trie alone, with one thread and with four: a line for each pass (see bench/scaling)
tries what has to be found out:
  --without KEY       all engines but the trie begin without this key
  --rename N M        the engine of number N gets the name of that of number M";

impl Options {
    pub fn cases(&self) -> impl Iterator<Item = Case> {
        let cases = self.workloads.iter().flat_map(|&workload| self.threads.iter().map(move |&threads| Case::new(workload, threads)));
        cases.chain(self.asides.iter().map(|&aside| Case::put_aside(aside)))
    }

    fn new() -> Options {
        Options {
            check: false,
            scaling: false,
            without: None,
            renamed: None,
            passes: 9,
            slice: Duration::from_millis(100),
            bytes: 3 << 23,
            workloads: Workload::ALL.into(),
            threads: vec![1, 2, 4],
            asides: Aside::ALL.into(),
            into: ".".into(),
        }
    }

    /// Leaves the workload of this name alone, if there is one.
    fn choose(&mut self, name: &str) -> Option<()> {
        self.workloads.retain(|it| it.name() == name);
        self.asides.retain(|it| it.name() == name);
        (self.workloads.len() + self.asides.len() > 0).then_some(())
    }

    /// None if the words are wrong.
    pub fn of(mut words: impl Iterator<Item = String>) -> Option<Options> {
        let mut options = Options::new();
        while let Some(word) = words.next() {
            let flag = match word.as_str() {
                "--check" => Some(&mut options.check),
                "--scaling" => Some(&mut options.scaling),
                _ => None,
            };
            if let Some(flag) = flag {
                *flag = true;
                continue;
            }
            let value = words.next()?;
            let number = || value.parse::<u32>().ok();
            match word.as_str() {
                "--without" => options.without = Some(number()?),
                "--rename" => options.renamed = Some((number()? as usize, words.next()?.parse().ok()?)),
                "--passes" => options.passes = number().filter(|&it| it > 0)? as usize,
                "--slice" => options.slice = Duration::from_millis(number().filter(|&it| it > 0)?.into()),
                "--bytes" => options.bytes = number().map(u64::from).filter(|it| (LEAST_BYTES..=3 << 28).contains(it))?,
                "--workload" => options.choose(&value)?,
                "--threads" => options.threads = vec![number().filter(|it| (1..=64).contains(it))? as usize],
                "--into" => options.into = value.into(),
                _ => return None,
            }
        }
        Some(options)
    }
}
