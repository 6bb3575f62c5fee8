//! Plays the files of rows, tests/rows/*.rows, whose form calls.rows has at its head: each row is a call and what it must answer. `ROWS` may name one more file.
use augtrie::{Again, Error, Look, Put, Told, Trie, User};
use std::collections::HashMap;
use std::panic::{AssertUnwindSafe, catch_unwind};
use std::path::{Path, PathBuf};
use std::{fs, thread};

// The names of codes, which begin with that of 0.
const CODES: [&str; 16] = ["ok", "none", "closed", "bad_key", "again", "no_memory", "bad_bits", "bad_users", "too_large", "no_user", "open", "bad_length",
    "looking", "not_looking", "too_great", "too_little"];
const NONE: i64 = -1;

// What no call of the crate answers, and the calls for arrays that take more keys than there are.
const UNHEARD: [&str; 4] = ["again", "open", "looking", "not_looking"];
const OF_ANY_LENGTH: [&str; 3] = ["rank_all", "has_all", "weight_all"];

/// A number of a list, and what stands behind it.
type Item = [i64; 3];

/// A call of a row, with its numbers and its list.
struct Job {
    call: String,
    numbers: Vec<u64>,
    list: Vec<Item>,
}

impl Job {
    fn number(&self, at: usize) -> u32 {
        self.numbers.get(at).map_or(0, |number| *number as u32)
    }
}

/// What a call answered: a number or a code, what it wrote, and a list of so many columns.
#[derive(Debug, Default)]
struct Answer {
    code: i64,
    wrote: Vec<i64>,
    list: Option<(usize, Vec<Item>)>,
}

// ---- Reading ----

struct Reader<'a, 'v> {
    rest: &'a str,
    variables: &'v mut HashMap<char, u64>,
}

impl<'a> Reader<'a, '_> {
    /// Whether these signs come next, which are passed over then.
    fn eat(&mut self, signs: &str) -> bool {
        let rest = self.rest.strip_prefix(signs);
        self.rest = rest.unwrap_or(self.rest);
        rest.is_some()
    }

    fn skip(&mut self) -> &mut Self {
        self.rest = self.rest.trim_start();
        self
    }

    /// The next signs of a kind.
    fn take(&mut self, kind: impl Fn(char) -> bool) -> &'a str {
        let (taken, rest) = self.rest.split_at(self.rest.find(|sign| !kind(sign)).unwrap_or(self.rest.len()));
        self.rest = rest;
        taken
    }

    fn word(&mut self) -> &'a str {
        self.skip().take(|sign| sign.is_ascii_alphabetic() || sign == '_')
    }

    /// A number, a variable or a code.
    fn atom(&mut self) -> i128 {
        let digits = self.take(|sign| sign.is_ascii_digit());
        match if digits.is_empty() { self.word() } else { digits } {
            "all" => 1 << 16,
            "most" => u32::MAX.into(),
            word if !digits.is_empty() => word.parse().expect("a number"),
            word if word.len() == 1 => self.variables[&word.parse().expect("a letter")].into(),
            word => -(CODES.iter().position(|code| *code == word).expect("the name of a code") as i128),
        }
    }

    /// Some of these with signs in between, from left to right.
    fn term(&mut self) -> i128 {
        let mut value = self.skip().atom();
        loop {
            let sign = self.take(|sign| "+-*/%".contains(sign));
            value = match sign {
                "" => return value,
                "+" => value + self.atom(),
                "-" => value - self.atom(),
                "*" => value * self.atom(),
                "/" => value / self.atom(),
                _ => value % self.atom(),
            };
        }
    }

    fn step(&mut self) -> usize {
        if self.eat(":") { self.term() as usize } else { 1 }
    }

    /// A list, of whose brackets the first was read.
    fn list(&mut self) -> Vec<Item> {
        let mut list = Vec::new();
        while !self.skip().eat("]") {
            let from = self.term();
            let keys: Vec<i128> = if self.eat("..") {
                let end = self.term();
                (from..end).step_by(self.step()).collect()
            } else if self.eat(">") {
                let end = self.term();
                (end..=from).rev().step_by(self.step()).collect()
            } else {
                vec![from; if self.eat("x") { self.term() as usize } else { 1 }]
            };
            let behind = self.rest;
            for key in keys {
                self.variables.insert('k', key.try_into().unwrap_or(0));
                self.rest = behind;
                let weight = if self.eat("=") { self.term() } else { key };
                let now = if self.eat(">") { self.term() } else { 0 };
                list.push([key as i64, weight as i64, now as i64]);
            }
            self.take(|sign| sign != ' ' && sign != ']');
        }
        list
    }

    fn handle(&mut self) -> String {
        let name = self.word();
        assert!(!name.is_empty(), "no handle before '{}'", self.rest);
        if self.eat("#") { format!("{name}#{}", self.term()) } else { name.into() }
    }

    /// Holds the answer of a call to that of the row.
    fn hold(&mut self, got: &Answer) {
        if !self.skip().eat("=") {
            assert_eq!(got.code, 0, "the answer");
        } else if self.skip().eat("[") {
            let (columns, list) = got.list.as_ref().expect("the row has a list");
            let want = self.list();
            assert_eq!((got.code, list.len()), (0, want.len()), "of the list");
            assert!(list.iter().zip(&want).all(|(got, want)| got[..*columns] == want[..*columns]), "{list:?}");
        } else {
            let mut wanted = vec![self.term()];
            while self.eat("|") {
                wanted.push(self.term());
            }
            assert!(wanted.contains(&got.code.into()) && (got.code < 0 || got.list.is_none()), "the answer is {got:?}");
        }
        if self.skip().eat("(") {
            // With a refusal the crate tells nothing.
            if got.code < NONE {
                return;
            }
            assert!(got.wrote.iter().all(|wrote| self.term() == i128::from(*wrote)) && self.skip().eat(")"), "it wrote {:?}", got.wrote);
        }
        assert_eq!(self.skip().rest, "", "is left");
    }
}

// ---- Calls ----

/// The code of an error, by its name.
fn code_of(cause: Error) -> i64 {
    let name = format!("{cause:?}");
    let name = name.split(' ').next().unwrap_or("").replace("BadBytes", "TooLarge");
    let words: String = name.chars().flat_map(|sign| [Some('_').filter(|_| sign.is_uppercase()), Some(sign.to_ascii_lowercase())]).flatten().collect();
    -(CODES.iter().position(|code| *code == &words[1..]).expect("each error has a code") as i64)
}

/// A number, with what C writes beside it, or the code of an error.
fn told<T>(answer: Result<T, Error>, tell: impl FnOnce(T) -> (i64, Vec<i64>)) -> Answer {
    let (code, wrote) = answer.map_or_else(|cause| (code_of(cause), Vec::new()), tell);
    Answer { code, wrote, list: None }
}

fn number(answer: Result<impl Into<i64>, Error>) -> Answer {
    told(answer, |number| (number.into(), Vec::new()))
}

fn weight(weight: Option<u32>) -> i64 {
    weight.map_or(NONE, i64::from)
}

/// What an update by an amount answers in C: whether this weight of those that it told is none.
fn changed(update: Result<Told, Error>, amount: u32, weighs: fn(&Told) -> Option<u32>) -> Answer {
    told(update, |it| (if amount == 0 { 3 } else if weighs(&it).is_none() { 1 } else { 2 }, vec![weight(it.before), weight(it.now)]))
}

fn popped(member: Result<Option<(u32, u32)>, Error>) -> Answer {
    told(member, |member| member.map_or((NONE, Vec::new()), |(key, weight)| (1, vec![key.into(), weight.into()])))
}

fn put(put: Result<Put, Error>, now: u32) -> Answer {
    told(put, |put| match put {
        Put::Accepted => (1, vec![NONE, now.into()]),
        Put::Replaced { before } => (2, vec![before.into(), now.into()]),
        Put::Refused => (0, Vec::new()),
    })
}

fn split(list: &[Item]) -> (Vec<u32>, Vec<u32>) {
    list.iter().map(|item| (item[0] as u32, item[1] as u32)).unzip()
}

/// An update, which a user makes or a look for its user.
macro_rules! update {
    ($of:expr, $job:expr) => {{
        let (job, (keys, weights)) = ($job, split(&$job.list));
        let (key, amount) = (job.number(0), job.number(1));
        Some(match job.call.as_str() {
            "insert" => number($of.insert(key)),
            "remove" => told($of.remove(key), |before| (before.is_some().into(), vec![weight(before), NONE])),
            "put" => put($of.put(key, amount), amount),
            "add" => changed($of.add(key, amount), amount, |told| told.before),
            "sub" => changed($of.sub(key, amount), amount, |told| told.now),
            "pop_first" => popped($of.pop_first()),
            "pop_last" => popped($of.pop_last()),
            "insert_all" => number($of.insert_all(&keys)),
            "remove_all" => number($of.remove_all(&keys)),
            "put_all" => number($of.put_all(&keys, &weights)),
            "room" => number($of.room()),
            _ => return None,
        })
    }};
}

fn by_user(user: &mut User, job: &Job) -> Option<Answer> {
    update!(user, job)
}

fn by_look(look: &mut Look, job: &Job) -> Option<Answer> {
    match job.call.as_str() {
        "look_again" => Some(number(look.again().map(|again| again == Again::NothingToCompare))),
        "shows" => Some(shows(look, &job.list)),
        _ => query(look, job).or_else(|| query_for_lists(look, job)).or_else(|| update!(look, job)),
    }
}

fn query(look: &Look, job: &Job) -> Option<Answer> {
    let key = job.number(0);
    let code = match job.call.as_str() {
        "size" => look.len().into(),
        "has" => look.contains(key).into(),
        "weight" => weight(look.get(key)),
        "rank" => look.rank(key).into(),
        "select" => weight(look.select(key)),
        "select_by_weight" => weight(look.select_by_weight(job.numbers[0])),
        "before" => weight(look.before(key)),
        "after" => weight(look.after(key)),
        "first" => weight(look.first()),
        "last" => weight(look.last()),
        "range" => return Some(told(Ok(look.range(key..job.number(1))), |it| (it.count.into(), vec![it.sum as i64, it.least.into(), it.greatest.into()]))),
        _ => return None,
    };
    Some(number(Ok(code)))
}

fn query_for_lists(look: &Look, job: &Job) -> Option<Answer> {
    fn list(columns: usize, items: impl Iterator<Item = Item>) -> Answer {
        Answer { list: Some((columns, items.collect())), ..Answer::default() }
    }
    let ((keys, weights), from, room) = (split(&job.list), job.number(0), job.number(1) as usize);
    let member = |(key, weight): (u32, u32)| [key.into(), weight.into(), 0];
    let changes = |changes: augtrie::Changes| list(3, changes.filter(|it| it.key >= from).take(room).map(|it| [it.key.into(), weight(it.before), weight(it.now)]));
    Some(match job.call.as_str() {
        "rank_all" => list(1, look.ranks(&keys).expect("memory").into_iter().map(|rank| [rank.into(), 0, 0])),
        "has_all" => list(1, look.contains_all(&keys).expect("memory").into_iter().map(|has| [has.into(), 0, 0])),
        "weight_all" => list(1, look.weights(&keys).expect("memory").into_iter().map(|it| [weight(it), 0, 0])),
        "keys" => list(1, look.keys(from..).take(room).map(member)),
        "list" => list(2, look.keys(from..).take(room).map(member)),
        "list_back" => list(2, look.keys(..from).rev().take(room).map(member)),
        "changes" => changes(look.changes()),
        "changes_since" => look.changes_since(&keys, &weights).map_or_else(|cause| number(Err::<i64, _>(cause)), changes),
        _ => return None,
    })
}

/// Holds each kind of query to a list, which is all that the look shows.
fn shows(look: &Look, items: &[Item]) -> Answer {
    let (keys, weights) = split(items);
    let members: Vec<(u32, u32)> = keys.iter().copied().zip(weights.iter().copied()).collect();
    let at = |place: usize| keys.get(place).copied();
    assert_eq!((look.len() as usize, look.is_empty(), look.first(), look.last()), (keys.len(), keys.is_empty(), at(0), keys.last().copied()));
    assert!(look.iter().eq(members.iter().copied()) && look.iter().rev().eq(members.iter().rev().copied()) && look.into_iter().len() == keys.len());
    let mut sum = 0;
    for (place, (key, weight)) in members.iter().copied().enumerate() {
        for near in [key, key.saturating_sub(1), key + 1] {
            let below = keys.partition_point(|key| *key < near);
            let is = at(below) == Some(near);
            assert_eq!((look.contains(near), look.get(near)), (is, weights.get(below).copied().filter(|_| is)));
            assert_eq!((look.rank(near) as usize, look.before(near), look.after(near)), (below, below.checked_sub(1).and_then(at), at(below + usize::from(is))));
        }
        assert_eq!(look.select(place as u32), Some(key));
        let within = [0, weight / 2, weight.saturating_sub(1)].map(|within| look.select_by_weight(sum + u64::from(within)));
        assert!(weight == 0 || within == [Some(key); 3]);
        sum += u64::from(weight);
    }
    assert_eq!((look.select(keys.len() as u32), look.select_by_weight(sum), look.select_by_weight(u64::MAX)), (None, None, None));
    for part in [0..keys.len(), keys.len() / 3..keys.len() * 2 / 3, keys.len() / 2..keys.len()] {
        let end = at(part.end).unwrap_or(u32::MAX);
        let span = look.range(at(part.start).unwrap_or(end)..end);
        let sum = weights[part.clone()].iter().copied().map(u64::from).sum();
        let ends = if part.is_empty() { (0, 0) } else { (keys[part.start], keys[part.end - 1]) };
        assert_eq!((span.count as usize, span.sum, (span.least, span.greatest)), (part.len(), sum, ends));
    }
    assert!(look.ranks(&keys).is_ok_and(|ranks| ranks.into_iter().eq(0..keys.len() as u32)) && look.contains_all(&keys) == Ok(vec![true; keys.len()]));
    assert!(look.weights(&keys).is_ok_and(|found| found.into_iter().eq(weights.into_iter().map(Some))));
    Answer::default()
}

// ---- Users, each with its look, which borrows it ----

struct Seated {
    look: Option<Look<'static>>,
    user: *mut User,
}

impl Seated {
    fn of(user: User) -> Seated {
        Seated { look: None, user: Box::into_raw(Box::new(user)) }
    }

    fn answer(&mut self, job: &Job) -> Option<Answer> {
        match (self.look.take(), job.call.as_str()) {
            (Some(look), "look_done") => drop(look),
            (Some(mut look), _) => {
                let answer = by_look(&mut look, job);
                self.look = Some(look);
                return answer;
            }
            // SAFETY: the user lives as long as this does, and nobody else has it while there is no look.
            (None, "look") => match unsafe { &mut *self.user }.look() {
                Ok(look) => self.look = Some(look),
                Err(cause) => return Some(number(Err::<i64, _>(cause))),
            },
            // SAFETY: the same.
            (None, _) => return by_user(unsafe { &mut *self.user }, job),
        }
        Some(Answer::default())
    }
}

impl Drop for Seated {
    fn drop(&mut self) {
        drop(self.look.take());
        // SAFETY: it is from a box, and nothing borrows it any longer.
        drop(unsafe { Box::from_raw(self.user) });
    }
}

// ---- Files ----

#[derive(Default)]
struct Player {
    tries: HashMap<String, Trie>,
    users: HashMap<String, Seated>,
    variables: HashMap<char, u64>,
    played: usize,
    passed_over: usize,
}

/// Says where a row stands that fails.
struct Place<'a>(&'a str, usize, &'a str);

impl Drop for Place<'_> {
    fn drop(&mut self) {
        if thread::panicking() {
            eprintln!("{}:{}: {}", self.0, self.1 + 1, self.2);
        }
    }
}

impl Player {
    /// What a row answers, and what is left of it, or none if the crate has no such call.
    fn answer<'a>(&mut self, of: &str, call: &str, row: &'a str) -> Option<(Answer, &'a str)> {
        let mut reader = Reader { rest: row, variables: &mut self.variables };
        let answer = match (self.tries.get(of), call) {
            (_, "open") => {
                let [bits, users] = [0, 1].map(|_| reader.term() as u32);
                let trie = Trie::new(bits, users, reader.term() as u64);
                number(trie.map(|trie| { self.tries.insert(of.into(), trie); 0 }))
            }
            (_, "least_bytes") => {
                let [bits, users] = [0, 1].map(|_| reader.term() as u32);
                number(Trie::least_bytes(bits, users).map(|bytes| bytes as i64))
            }
            (trie, "user") => {
                let (name, user) = (reader.handle(), trie?.user());
                number(user.map(|user| { self.users.insert(name, Seated::of(user)); 0 }))
            }
            (trie, "tend") => number(trie?.tend()),
            (Some(trie), "close") => told(trie.close(), |it| (0, vec![it.inserts as i64, it.removals as i64, it.size.into()])),
            (None, "close") => {
                drop(self.users.remove(of)?);
                Answer::default()
            }
            _ => {
                let list = if reader.skip().eat("[") { reader.list() } else { Vec::new() };
                let mut numbers = Vec::new();
                while !reader.skip().rest.is_empty() && !reader.rest.starts_with(['=', '(']) {
                    numbers.push(reader.term() as u64);
                }
                self.users.get_mut(of)?.answer(&Job { call: call.into(), numbers, list }).expect("there is such a call")
            }
        };
        Some((answer, reader.rest))
    }

    fn row(&mut self, row: &str) {
        let mut reader = Reader { rest: row, variables: &mut self.variables };
        let of = reader.handle();
        assert!(reader.eat("."), "no call");
        let (call, rest) = (reader.word(), reader.rest);
        let (call, ends) = (call.strip_prefix("try_").unwrap_or(call), |code: &str| rest.ends_with(&format!("= {code}")));
        let has_no_call = call.starts_with("wait_") || UNHEARD.into_iter().any(ends) || (OF_ANY_LENGTH.contains(&call) && ends("bad_length"));
        match if has_no_call { None } else { self.answer(&of, call, rest) } {
            None => {
                // A row that is passed over is refused, so nothing changes.
                assert!(has_no_call || ends("closed"), "nobody has '{of}'");
                self.passed_over += 1;
            }
            Some((answer, rest)) => {
                Reader { rest, variables: &mut self.variables }.hold(&answer);
                self.played += 1;
            }
        }
    }

    fn play(&mut self, file: &str, lines: &[&str], first: usize) {
        let mut at = 0;
        while at < lines.len() {
            let _place = Place(file, first + at, lines[at]);
            if let Some(head) = lines[at].strip_prefix("repeat ") {
                let mut depth = 0;
                let length = lines[at..].iter().position(|line| {
                    depth += i32::from(line.starts_with("repeat ")) - i32::from(*line == "}");
                    depth == 0
                });
                let end = at + length.expect("the block ends");
                let mut reader = Reader { rest: head, variables: &mut self.variables };
                let (times, name) = (reader.term(), reader.word());
                assert_eq!(reader.skip().rest, "{", "of a block");
                for turn in 0..times {
                    name.chars().for_each(|name| _ = self.variables.insert(name, turn as u64));
                    self.play(file, &lines[at + 1..end], first + at + 1);
                }
                at = end;
            } else if !lines[at].is_empty() {
                self.row(lines[at]);
            }
            at += 1;
        }
    }
}

/// Plays a file: how many rows were played, and how many passed over.
fn play(name: &str, text: &str) -> (usize, usize) {
    let lines: Vec<&str> = text.lines().map(|line| if line.starts_with('#') { "" } else { line.split(" #").next().unwrap_or("").trim() }).collect();
    let mut player = Player::default();
    player.play(name, &lines, 0);
    (player.played, player.passed_over)
}

/// The folder of the rows: here in the packed crate, and with those of other languages in the repository.
fn folder() -> PathBuf {
    let folders = ["tests/rows", "../../tests/rows"].map(|it| Path::new(env!("CARGO_MANIFEST_DIR")).join(it));
    folders.into_iter().find(|it| it.is_dir()).expect("the rows are there")
}

#[test]
fn each_row_is_answered() {
    let own = fs::read_dir(folder()).expect("a folder").map(|it| it.expect("a file").path()).filter(|it| it.extension().is_some_and(|it| it == "rows"));
    let (mut played, mut passed_over) = (0, 0);
    for file in own.chain(std::env::var_os("ROWS").map(PathBuf::from)) {
        let (more, more_passed) = play(&file.display().to_string(), &fs::read_to_string(&file).expect("a text"));
        assert!(more > more_passed, "{}", file.display());
        (played, passed_over) = (played + more, passed_over + more_passed);
    }
    println!("ok: {played} rows, {passed_over} passed over");
    assert!(played >= 10_000 && passed_over >= 50);
}

#[test]
fn a_wrong_answer_is_found() {
    let before = "T.open 4 1 1048576\nT.user a\na.put_all [1=30 2=40] = 2\na.look\n";
    let text = fs::read_to_string(folder().join("wrong.txt")).expect("a text");
    let found = text.lines().filter_map(|line| line.split_once(" / ")).map(|(right, wrong)| {
        assert_eq!(play("right", &format!("{before}{right}")).0, 5);
        assert!(catch_unwind(AssertUnwindSafe(|| play("wrong, and refused", &format!("{before}{wrong}")))).is_err(), "{wrong}");
    });
    assert!(found.count() >= 20);
}
