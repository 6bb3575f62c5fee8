use crate::operation::{BITS, KEYS};
use crate::plain::{Pass, SeqCst, Words, room};

/// The table is not full before all is done.
const BYTES: u64 = 1 << 25;

/// Makes an operation of the plain algorithm so many times, in the library's orders, for a counter of instructions: the sum of the answers. `ops.c`
/// does the same of the library.
pub fn count<const CHECKED: bool>(operation: &str, times: u32) -> Option<u64> {
    let table = room(BYTES);
    let words = Words::<SeqCst, CHECKED>::of(&table, BITS as usize);
    let mut pass = Pass { words, left: &mut (words.open()..words.records()) };
    for i in 0..KEYS / 2 {
        pass.insert(u64::from(2 * i));
    }
    let now = words.snapshot();
    let half = |i: u32| u64::from(i.wrapping_mul(20_011) % (KEYS / 2));
    let key = |i: u32| u64::from(i.wrapping_mul(40_503) % KEYS);
    let mut sum = 0u64;
    macro_rules! each {
        ($i:ident, $answer:expr) => {
            for $i in 0..times {
                sum = sum.wrapping_add($answer)
            }
        };
    }
    match operation {
        "none" => {}
        "insert_new" => each!(i, u64::from(pass.insert(2 * half(i) + 1))),
        "insert_present" => each!(i, u64::from(pass.insert(2 * half(i)))),
        "put" => each!(i, pass.put(2 * half(i), u64::from(i))),
        "look" | "again" => each!(i, u64::from(i > times + (words.snapshot() >> 60) as u32)),
        "has" => each!(i, u64::from(words.has(now, key(i)))),
        "rank" => each!(i, words.rank(now, key(i))),
        "select" => each!(i, words.select(now, half(i)).unwrap_or(u64::MAX)),
        "before" => each!(i, words.beside::<false>(now, key(i)).unwrap_or(u64::MAX)),
        "after" => each!(i, words.beside::<true>(now, key(i)).unwrap_or(u64::MAX)),
        "range" => each!(i, words.range(now, half(i), u64::from(KEYS / 2) + key(i) % u64::from(KEYS / 2)).count),
        "size" => each!(i, {
            let _ = i;
            words.size(now)
        }),
        _ => return None,
    }
    Some(sum)
}
