use crate::ffi;
use crate::trie::Trie;
use std::ffi::CStr;
use std::fmt;

/// Why a call did nothing, with the numbers that were wrong.
///
/// ```
/// use augtrie::{Error, Trie};
///
/// let refused = Trie::new(16, 4, 1 << 20).unwrap_err();
/// assert_eq!(refused, Error::BadBytes { bytes: 1 << 20, bits: 16, users: 4 });
/// assert_eq!(refused.to_string(), "of 1048576 bytes, 11503440 are needed for 16 bits and 4 users");
/// let trie = Trie::new(16, 1, 1 << 24)?;
/// assert!(matches!(trie.user()?.insert(70_000), Err(Error::BadKey { key: 70_000, .. })));
/// # Ok::<(), Error>(())
/// ```
#[derive(Debug, Clone, Copy, PartialEq, Eq, Hash)]
#[non_exhaustive]
pub enum Error {
    /// The trie was closed.
    Closed,
    /// A key is not below `2^bits`; or, of a list, it is not above the one before it.
    BadKey {
        /// The key: of several, the first.
        key: u32,
        /// The bits of the trie.
        bits: u32,
    },
    /// The call would have waited for another thread. The calls of this crate wait, and never answer it.
    Again,
    /// A request for memory was refused.
    NoMemory,
    /// The bits are outside 1 to 16.
    BadBits {
        /// The bits.
        bits: u32,
    },
    /// The users are outside 1 to 64.
    BadUsers {
        /// The users.
        users: u32,
    },
    /// The bytes are fewer than [`Trie::least_bytes`] of these bits and users, or more than [`Trie::MOST_BYTES`].
    BadBytes {
        /// The bytes.
        bytes: u64,
        /// The bits of the trie.
        bits: u32,
        /// Its users.
        users: u32,
    },
    /// All users of the trie are open.
    NoUser {
        /// How many these are.
        users: u32,
    },
    /// The handle is open already. No handle of this crate is opened twice.
    Open,
    /// There are more keys than `2^bits`, or not as many weights as keys.
    BadLength,
    /// The user has a look already. [`User::look`](crate::User::look) ends one that was forgotten, so no call answers this.
    Looking,
    /// The user has no look. A [`Look`](crate::Look) always has its own.
    NotLooking,
    /// The weight and the amount together are no weight of 32 bits.
    TooGreat,
    /// The key is no member, or weighs less than the amount.
    TooLittle,
}

// The codes of `augtrie.h` and their errors, where these have no numbers.
const PLAIN: [(i64, Error); 9] = [
    (-2, Error::Closed),
    (-4, Error::Again),
    (-5, Error::NoMemory),
    (-10, Error::Open),
    (-11, Error::BadLength),
    (-12, Error::Looking),
    (-13, Error::NotLooking),
    (-14, Error::TooGreat),
    (-15, Error::TooLittle),
];

/// What a call was given, as far as its error tells.
#[derive(Debug, Default, Clone, Copy)]
pub(crate) struct Given<'a> {
    pub(crate) keys: &'a [u32],
    pub(crate) bits: u32,
    pub(crate) users: u32,
    pub(crate) bytes: u64,
}

impl Given<'_> {
    // The first key that is not below `2^bits`, or else the first that is not above the one before it.
    fn bad_key(&self) -> u32 {
        let falls = || self.keys.windows(2).find(|pair| pair[1] <= pair[0]).map(|pair| pair[1]);
        self.keys.iter().copied().find(|key| key >> self.bits != 0).or_else(falls).unwrap_or(0)
    }
}

impl Error {
    /// The error that a code of `augtrie.h` stands for.
    #[cold]
    pub(crate) fn of_code(code: i64, given: Given) -> Error {
        let Given { bits, users, bytes, .. } = given;
        match code {
            -3 => Error::BadKey { key: given.bad_key(), bits },
            -6 => Error::BadBits { bits },
            -7 => Error::BadUsers { users },
            -8 => Error::BadBytes { bytes, bits, users },
            -9 => Error::NoUser { users },
            code => PLAIN.into_iter().find(|plain| plain.0 == code).map_or(Error::Closed, |plain| plain.1),
        }
    }
}

impl fmt::Display for Error {
    fn fmt(&self, f: &mut fmt::Formatter<'_>) -> fmt::Result {
        match *self {
            Error::BadKey { key, bits } if key >> bits == 0 => write!(f, "key {key} is not above the one before it in the list"),
            Error::BadKey { key, bits } => write!(f, "key {key} is not below 2^{bits}"),
            Error::BadBits { bits } => write!(f, "{bits} bits are outside 1 to 16"),
            Error::BadUsers { users } => write!(f, "{users} users are outside 1 to 64"),
            Error::BadBytes { bytes, .. } if bytes > Trie::MOST_BYTES => write!(f, "{bytes} bytes are more than 3 * 2^29"),
            Error::BadBytes { bytes, bits, users } => {
                let least = ffi::aug_least_bytes(bits, users);
                write!(f, "of {bytes} bytes, {least} are needed for {bits} bits and {users} users")
            }
            Error::NoUser { users } => write!(f, "all {users} users of the trie are open"),
            Error::BadLength => f.write_str("there are more keys than 2^bits, or not as many weights as keys"),
            plain => {
                let code = PLAIN.into_iter().find(|it| it.1 == plain).map_or(0, |it| it.0);
                // SAFETY: of any number the library tells a text that ends with a zero and stays as long as the program.
                let text = unsafe { CStr::from_ptr(ffi::aug_error_text(code)) };
                f.write_str(&text.to_string_lossy())
            }
        }
    }
}

impl std::error::Error for Error {}

#[cfg(test)]
mod tests {
    use super::*;

    #[test]
    fn each_code_has_its_error_and_a_text_of_its_own() {
        let mut texts = Vec::new();
        for code in (-15..=-2).rev() {
            let given = Given { keys: &[3, 16, 17], bits: 4, users: 65, bytes: 9 };
            let text = Error::of_code(code, given).to_string();
            assert!(!texts.contains(&text), "{text}");
            texts.push(text);
        }
        assert_eq!(texts[3], "a request for memory was refused");
        let named = [1, 4, 5, 7].map(|at| texts[at].as_str());
        assert_eq!(named, ["key 16 is not below 2^4", "4 bits are outside 1 to 16", "65 users are outside 1 to 64", "all 65 users of the trie are open"]);
        assert_eq!(Error::of_code(-16, Given::default()), Error::Closed);
    }
}
