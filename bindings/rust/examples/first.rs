use augtrie::Trie;
use std::thread;

fn main() -> Result<(), augtrie::Error> {
    // Keys below 2^12, two users, and a table of at most 2 MiB.
    let trie = Trie::new(12, 2, 1 << 21)?;
    let (mut writer, mut reader) = (trie.user()?, trie.user()?);
    (0..500).try_for_each(|key| writer.insert(key).map(drop))?;
    thread::scope(|scope| {
        scope.spawn(move || (500..1000).try_for_each(|key| writer.insert(key).map(drop)));
        // A snapshot, which does not change while the other thread inserts.
        let now = reader.look()?;
        println!("{} of {} are below 500", now.rank(500), now.len());
        Ok::<(), augtrie::Error>(())
    })?;
    println!("{} at the end", trie.close()?.size);
    Ok(())
}
