//! The library as it is: see `augtrie.h`, which says what its callers owe. The calls that never wait are left out.
use core::ffi::{c_char, c_void};
use core::ptr::null_mut;

/// The handle of a trie. All zeros before it is opened. Only the library changes its fields, and nothing copies it.
#[derive(Debug)]
#[repr(C)]
pub struct Trie {
    tag: u64,
    at: *mut c_void,
}

impl Trie {
    pub const CLOSED: Trie = Trie { tag: 0, at: null_mut() };
}

// SAFETY: any thread may open users of a trie and close it. That closing is the last call is kept by the lock around it.
unsafe impl Send for Trie {}
// SAFETY: what a shared handle is asked for is to open users, which the library does one after the other.
unsafe impl Sync for Trie {}

/// The handle of a user, as that of a trie.
#[derive(Debug)]
#[repr(C)]
pub struct User {
    tag: u64,
    at: *mut c_void,
    of: *mut c_void,
    waits: u64,
}

impl User {
    pub const CLOSED: User = User { tag: 0, at: null_mut(), of: null_mut(), waits: 0 };
}

// SAFETY: a user may go from thread to thread, with its look, if its calls are ordered: whatever hands a value on in safe Rust orders them.
unsafe impl Send for User {}

/// What the members of an interval come to. Of no members, the least and the greatest are 0.
#[repr(C)]
#[derive(Debug, Default, Clone, Copy, PartialEq, Eq)]
pub struct Span {
    /// The sum of their weights, modulo 2^64.
    pub sum: u64,
    /// How many they are.
    pub count: u32,
    /// The least key.
    pub least: u32,
    /// The greatest key.
    pub greatest: u32,
}

/// A member that was taken out.
#[repr(C)]
#[derive(Default)]
pub struct Member {
    pub key: u32,
    pub weight: u32,
}

/// A key that changed, and its weight in both snapshots, or a number below 0.
#[repr(C)]
#[derive(Debug, Default, Clone, Copy)]
pub struct Change {
    pub key: u32,
    pub before: i64,
    pub now: i64,
}

/// What a key weighed before an update and weighs after it, or a number below 0.
#[repr(C)]
#[derive(Default)]
pub struct Told {
    pub before: i64,
    pub now: i64,
}

/// What the life of a trie came to. A weight that was replaced counts as an insertion and a removal.
#[repr(C)]
#[derive(Debug, Default, Clone, Copy, PartialEq, Eq)]
pub struct Report {
    /// How many keys were put in.
    pub inserts: u64,
    /// How many keys were taken out.
    pub removals: u64,
    /// How many members there were at the end.
    pub size: u32,
}

// SAFETY: these are the declarations of the header. A call owes that a handle was zeroed before it was opened and is in no other call: that is
// kept by `Trie`, `User` and `&mut`. To open a user only reads the trie's handle. What a call owes of arrays beside that is said where it is
// made, so those alone are unsafe.
unsafe extern "C" {
    pub safe fn aug_version() -> *const c_char;
    pub safe fn aug_error_text(code: i64) -> *const c_char;
    pub safe fn aug_open(trie: &mut Trie, bits: u32, users: u32, bytes: u64) -> i64;
    pub safe fn aug_least_bytes(bits: u32, users: u32) -> i64;
    pub safe fn aug_user_open(trie: &Trie, user: &mut User) -> i64;
    pub safe fn aug_user_close(user: &mut User) -> i64;
    pub safe fn aug_tend(trie: &Trie) -> i64;
    pub safe fn aug_close(trie: &mut Trie, report: Option<&mut Report>) -> i64;
    pub safe fn aug_insert(user: &mut User, key: u32) -> i64;
    pub safe fn aug_remove(user: &mut User, key: u32, told: Option<&mut Told>) -> i64;
    pub safe fn aug_put(user: &mut User, key: u32, weight: u32, told: Option<&mut Told>) -> i64;
    pub safe fn aug_add(user: &mut User, key: u32, amount: u32, told: Option<&mut Told>) -> i64;
    pub safe fn aug_sub(user: &mut User, key: u32, amount: u32, told: Option<&mut Told>) -> i64;
    pub safe fn aug_pop_first(user: &mut User, member: &mut Member) -> i64;
    pub safe fn aug_pop_last(user: &mut User, member: &mut Member) -> i64;
    pub fn aug_insert_all(user: &mut User, keys: *const u32, n: usize) -> i64;
    pub fn aug_remove_all(user: &mut User, keys: *const u32, n: usize) -> i64;
    pub fn aug_put_all(user: &mut User, keys: *const u32, n: usize, weights: *const u32, weight_count: usize) -> i64;
    pub safe fn aug_room(user: &mut User) -> i64;
    pub safe fn aug_look(user: &mut User) -> i64;
    pub safe fn aug_look_again(user: &mut User) -> i64;
    pub safe fn aug_look_done(user: &mut User) -> i64;
    pub safe fn aug_has(user: &mut User, key: u32) -> i64;
    pub safe fn aug_weight(user: &mut User, key: u32) -> i64;
    pub safe fn aug_size(user: &mut User) -> i64;
    pub safe fn aug_rank(user: &mut User, key: u32) -> i64;
    pub safe fn aug_select(user: &mut User, index: u32) -> i64;
    pub safe fn aug_select_by_weight(user: &mut User, sum: u64) -> i64;
    pub safe fn aug_before(user: &mut User, key: u32) -> i64;
    pub safe fn aug_after(user: &mut User, key: u32) -> i64;
    pub safe fn aug_first(user: &mut User) -> i64;
    pub safe fn aug_last(user: &mut User) -> i64;
    pub safe fn aug_range(user: &mut User, from: u32, to: u32, span: &mut Span) -> i64;
    pub fn aug_rank_all(user: &mut User, keys: *const u32, n: usize, out: *mut u32, room: usize) -> i64;
    pub fn aug_has_all(user: &mut User, keys: *const u32, n: usize, out: *mut u8, room: usize) -> i64;
    pub fn aug_weight_all(user: &mut User, keys: *const u32, n: usize, out: *mut i64, room: usize) -> i64;
    // Members are listed with their weights here.
    #[expect(dead_code)]
    pub fn aug_keys(user: &mut User, from: u32, out: *mut u32, room: usize) -> i64;
    pub fn aug_list(user: &mut User, from: u32, keys: *mut u32, weights: *mut u32, room: usize) -> i64;
    pub fn aug_list_back(user: &mut User, below: u32, keys: *mut u32, weights: *mut u32, room: usize) -> i64;
    pub fn aug_changes(user: &mut User, from: u32, out: *mut Change, room: usize) -> i64;
    pub fn aug_changes_since(user: &mut User, keys: *const u32, weights: *const u32, n: usize, from: u32, out: *mut Change, room: usize) -> i64;
}
