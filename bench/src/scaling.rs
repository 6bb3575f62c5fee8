use crate::case::Case;
use crate::engine::Engine;
use crate::options::Options;
use crate::runner::Runner;
use crate::users::Users;
use crate::workload::Workload;

/// The most threads that are compared with one.
const THREADS: usize = 4;

/// What queries of the trie come to on one thread and on four, in million operations a second: a line each pass, which `bench/scaling` judges.
/// Each pass begins with the other one.
pub fn print(options: &Options) {
    let mut users = Users::new(THREADS, options.bytes);
    users.fill(None);
    for pass in 0..options.passes {
        let mut rate = |threads| {
            users.slice(Case::new(Workload::Queries, threads), options.slice, pass as u64).rate()
        };
        let (one, four) = if pass % 2 == 0 {
            let one = rate(1);
            (one, rate(THREADS))
        } else {
            let four = rate(THREADS);
            (rate(1), four)
        };
        println!("{one:.4} {four:.4}");
    }
}
