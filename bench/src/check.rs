use crate::engines;
use crate::options::LEAST_BYTES;
use crate::workload::Workload;

/// How many operations of each workload are compared.
const OPERATIONS: u64 = 2_000;

/// Has all engines make the same operations on one thread, and compares every answer with the trie's: a line for each, and whether all agree.
/// Tables are as small as may be, so that they roll over in between.
pub fn check(without: Option<u32>) -> (String, bool) {
    let (mut lines, mut agree) = (String::new(), true);
    for workload in Workload::ALL {
        let mut entries = engines::all(1, LEAST_BYTES, without);
        let mut answers = entries.iter_mut().map(|entry| (entry.name, entry.runner.answers(workload, OPERATIONS)));
        let (trie, want) = answers.next().expect("the trie is the first");
        for (name, got) in answers {
            let same = want.iter().zip(&got).take_while(|(one, other)| one == other).count();
            let are_same = same == want.len() && same == got.len();
            let verdict = if are_same { format!("agree in {same} answers") } else { format!("DIFFER after {same} answers") };
            lines += &format!("{}: {trie} and {name} {verdict}\n", workload.name());
            agree &= are_same;
        }
    }
    (lines, agree)
}
