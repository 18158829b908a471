//! Names of entries.

use crate::ffi;
use crate::values::{Entry, Kind};
use std::error::Error;
use std::fmt;
use std::str::{self, FromStr};

/// The name of an entry: 1 to 16 bytes that aren't all 0. It is made once, and used in any number
/// of lookups. Names are ordered as their bytes are.
///
/// A name is made of a text or of bytes, whichever they are, by `try_from` or `parse::<Name>()`;
/// and of a number by `from`.
///
/// ```
/// use kupaldiz::{Name, NameError};
///
/// const WM: Name = Name::from_static("wm");
///
/// let vlan = Name::try_from("eth0.100").unwrap();
/// assert!(WM > vlan && vlan == "eth0.100" && vlan.to_string() == "eth0.100");
/// assert_eq!(Name::try_from(""), Err(NameError::Empty));
/// assert_eq!(Name::from(7).id(), Some(7));
///
/// let loopback = Name::try_from(&[127, 0, 0, 1][..]).unwrap();
/// assert_eq!(loopback.as_bytes(), [127, 0, 0, 1]);
/// ```
#[derive(Clone, Copy, PartialEq, Eq, Hash, PartialOrd, Ord)]
pub struct Name {
    /// As C has it: a lookup gives it away as it is.
    pub(crate) words: ffi::Name,
    /// Its bytes, and zeros after them.
    bytes: [u8; ROOM],
}

/// The bytes of the two words of C.
const ROOM: usize = 16;

/// The bytes of an id's name.
const ID_BYTES: usize = 13;

impl Name {
    /// The name with these bytes, whichever they are. Zeros at the end aren't told from no bytes:
    /// give keys that may end in them, such as addresses, one length.
    ///
    /// # Errors
    ///
    /// [`NameError::TooLong`] with more than 16 bytes; [`NameError::Empty`] if there is none, or
    /// all are 0.
    pub const fn from_bytes(bytes: &[u8]) -> Result<Name, NameError> {
        if bytes.len() > ROOM {
            return Err(NameError::TooLong);
        }
        let (mut row, mut place) = ([0; ROOM], 0);
        while place < bytes.len() {
            row[place] = bytes[place];
            place += 1;
        }
        match u128::from_be_bytes(row) {
            0 => Err(NameError::Empty),
            _ => Ok(Name::of_row(row)),
        }
    }

    /// The name with these bytes, and zeros at their end.
    const fn of_row(bytes: [u8; ROOM]) -> Name {
        let both = u128::from_be_bytes(bytes);
        Name { words: ffi::Name { high: (both >> 64) as u64, low: both as u64 }, bytes }
    }

    /// The name with this text, for a constant. In a constant, a text that is no name is a compile
    /// error.
    ///
    /// ```compile_fail,E0080
    /// const LONG: kupaldiz::Name = kupaldiz::Name::from_static("longer-than-16-by");
    /// ```
    ///
    /// # Panics
    ///
    /// If the text is no name.
    #[must_use]
    pub const fn from_static(text: &'static str) -> Name {
        match Name::from_bytes(text.as_bytes()) {
            Ok(name) => name,
            Err(_) => panic!("the text is no name"),
        }
    }

    /// The name of a number: a letter for its four highest bits, and twelve digits to the base 32.
    /// Names order as their numbers do. [`id`](Name::id) is the way back.
    #[must_use]
    pub const fn from_id(id: u64) -> Name {
        let (mut bytes, mut place) = ([0; ROOM], 1);
        bytes[0] = b'a' + (id >> 60) as u8;
        while place < ID_BYTES {
            let digit = (id >> (5 * (ID_BYTES - 1 - place)) & 31) as u8;
            bytes[place] = if digit < 10 { b'0' + digit } else { b'a' + digit - 10 };
            place += 1;
        }
        Name::of_row(bytes)
    }

    /// The number whose name this is, if it is what [`from_id`](Name::from_id) makes.
    #[must_use]
    pub fn id(&self) -> Option<u64> {
        let mut id = 0;
        // SAFETY: each of the two places is a value of its own.
        let answer = unsafe { ffi::kupaldiz_id_of_name(&self.words, &mut id) };
        (answer == ffi::DONE).then_some(id)
    }

    /// The name that these words of the archive are.
    #[inline]
    pub(crate) fn of_words(words: ffi::Name) -> Name {
        Name { words, bytes: (u128::from(words.high) << 64 | u128::from(words.low)).to_be_bytes() }
    }

    /// Its bytes, up to the last one that isn't 0.
    #[must_use]
    pub fn as_bytes(&self) -> &[u8] {
        let length = self.bytes.iter().rposition(|byte| *byte != 0).map_or(0, |last| last + 1);
        &self.bytes[..length]
    }

    /// Its bytes as a text, if they are UTF-8.
    #[must_use]
    pub fn as_str(&self) -> Option<&str> {
        str::from_utf8(self.as_bytes()).ok()
    }
}

impl FromStr for Name {
    type Err = NameError;

    /// The name with this text, whichever it is.
    fn from_str(text: &str) -> Result<Name, NameError> {
        Name::from_bytes(text.as_bytes())
    }
}

impl TryFrom<&str> for Name {
    type Error = NameError;

    fn try_from(text: &str) -> Result<Name, NameError> {
        Name::from_bytes(text.as_bytes())
    }
}

impl TryFrom<&[u8]> for Name {
    type Error = NameError;

    fn try_from(bytes: &[u8]) -> Result<Name, NameError> {
        Name::from_bytes(bytes)
    }
}

impl From<u64> for Name {
    /// As [`Name::from_id`].
    fn from(id: u64) -> Name {
        Name::from_id(id)
    }
}

impl PartialEq<str> for Name {
    fn eq(&self, text: &str) -> bool {
        self.as_bytes() == text.as_bytes()
    }
}

impl PartialEq<&str> for Name {
    fn eq(&self, text: &&str) -> bool {
        *self == **text
    }
}

/// The text, with escapes for bytes that aren't printable ASCII.
impl fmt::Display for Name {
    fn fmt(&self, f: &mut fmt::Formatter<'_>) -> fmt::Result {
        f.pad(&self.as_bytes().escape_ascii().to_string())
    }
}

impl fmt::Debug for Name {
    fn fmt(&self, f: &mut fmt::Formatter<'_>) -> fmt::Result {
        write!(f, "Name({self})")
    }
}

/// What a call names an entry by: a name, and a kind where that isn't the plain one. Each call
/// takes what a key is made of: a [`Name`] or a reference to one, a text, bytes, a number, an
/// [`Entry`], or a pair of a [`Kind`] and one of these.
///
/// Where it is used often, make the [`Name`] once. Of a text or bytes that are no name, the key is
/// one that no entry has: an attach fails with `BadName`, and a lookup with `NotFound`.
///
/// ```
/// use kupaldiz::{Kind, Registry, Settings};
///
/// let registry = Registry::open(Settings::new(1, 3)).unwrap();
/// registry.attach("wm", 7).unwrap();
/// registry.attach_iface("wm", "wm0", 8).unwrap();
/// registry.attach(&[127, 0, 0, 1], 9).unwrap();
/// let [one, two] = [registry.get("wm"), registry.get((Kind::Iface, &String::from("wm0")))];
/// assert_eq!((*one.unwrap(), *two.unwrap(), *registry.get(b"\x7f\0\0\x01").unwrap()), (7, 8, 9));
/// ```
#[derive(Clone, Copy, Debug, PartialEq, Eq, Hash)]
pub struct Key {
    pub(crate) kind: Kind,
    /// As C has them: 0 of what is no name.
    pub(crate) words: ffi::Name,
}

impl From<&Name> for Key {
    #[inline]
    fn from(name: &Name) -> Key {
        Key { kind: Kind::Driver, words: name.words }
    }
}

impl From<Name> for Key {
    #[inline]
    fn from(name: Name) -> Key {
        Key::from(&name)
    }
}

impl From<&str> for Key {
    fn from(text: &str) -> Key {
        Key::from(text.as_bytes())
    }
}

impl From<&[u8]> for Key {
    fn from(bytes: &[u8]) -> Key {
        let words = Name::from_bytes(bytes).map_or(ffi::Name::default(), |name| name.words);
        Key { kind: Kind::Driver, words }
    }
}

impl From<&String> for Key {
    fn from(text: &String) -> Key {
        Key::from(text.as_bytes())
    }
}

impl<const LENGTH: usize> From<&[u8; LENGTH]> for Key {
    fn from(bytes: &[u8; LENGTH]) -> Key {
        Key::from(&bytes[..])
    }
}

impl From<u64> for Key {
    fn from(id: u64) -> Key {
        Key::from(Name::from_id(id))
    }
}

impl From<&Entry> for Key {
    /// The kind and the name of an entry. Another one may have them by now.
    fn from(entry: &Entry) -> Key {
        Key::from((entry.kind, entry.name))
    }
}

impl<K: Into<Key>> From<(Kind, K)> for Key {
    #[inline]
    fn from((kind, name): (Kind, K)) -> Key {
        Key { kind, words: name.into().words }
    }
}

/// Why bytes are no name.
#[derive(Clone, Copy, Debug, PartialEq, Eq, Hash)]
#[non_exhaustive]
pub enum NameError {
    /// There is no byte, or zeros alone.
    Empty,
    /// There are more than 16 bytes.
    TooLong,
}

impl fmt::Display for NameError {
    fn fmt(&self, f: &mut fmt::Formatter<'_>) -> fmt::Result {
        f.write_str(match self {
            NameError::Empty => "a name has at least one byte that isn't 0",
            NameError::TooLong => "a name has at most 16 bytes",
        })
    }
}

impl Error for NameError {}

#[cfg(test)]
mod tests {
    use super::{Name, NameError};
    use crate::ffi;

    fn made_by_archive(bytes: &[u8]) -> Result<ffi::Name, NameError> {
        let (mut words, at) = (ffi::Name::default(), bytes.as_ptr().cast());
        // SAFETY: the bytes are those of the slice, and the place is a value of its own.
        match unsafe { ffi::kupaldiz_name_of_bytes(at, bytes.len(), &mut words) } {
            ffi::DONE => Ok(words),
            ffi::BAD_NAME => Err(NameError::Empty),
            ffi::NAME_TOO_LONG => Err(NameError::TooLong),
            other => panic!("{other}"),
        }
    }

    #[test]
    fn names_are_those_of_the_archive() {
        let mut texts: Vec<Vec<u8>> = (0..=255)
            .flat_map(|byte| [vec![byte], vec![b'a', byte], vec![b'z', b'9', byte, b'a']])
            .collect();
        for length in 0..40 {
            texts.extend([b'a', b'z', b'0', b'9', b'A', b'_'].map(|byte| vec![byte; length]));
            texts.push((0..length).map(|place| b'a' + (place % 26) as u8).collect());
        }
        for bytes in texts {
            let name = Name::from_bytes(&bytes);
            assert_eq!(name.map(|name| name.words), made_by_archive(&bytes), "{bytes:?}");
            if let Ok(name) = name {
                let written = &bytes
                    [..bytes.len() - bytes.iter().rev().take_while(|byte| **byte == 0).count()];
                assert_eq!((name.as_bytes(), Name::of_words(name.words)), (written, name));
            }
        }
    }

    #[test]
    fn other_bytes_are_shown_by_escapes() {
        let name = Name::from_bytes(b"br-lan\n\xff").unwrap();
        assert_eq!(
            (name.to_string(), name.as_str(), name.id()),
            ("br-lan\\n\\xff".to_owned(), None, None)
        );
        assert_eq!(format!("{:>6}", Name::from_bytes(b"e.1").unwrap()), "   e.1");
    }

    #[test]
    fn the_name_of_an_id_is_that_of_the_archive() {
        let mut ids: Vec<u64> = (0..2_000).chain([u64::MAX - 1, u64::MAX]).collect();
        ids.extend((0..64).flat_map(|bit| {
            [1 << bit, (1 << bit) - 1, u64::MAX >> bit, 0x0123_4567_89ab_cdef_u64.rotate_left(bit)]
        }));
        ids.sort_unstable();
        ids.dedup();
        let names: Vec<Name> = ids.iter().map(|id| Name::from_id(*id)).collect();
        for (id, name) in ids.iter().zip(&names) {
            let mut words = ffi::Name::default();
            // SAFETY: the place is a value of its own.
            let made = unsafe { ffi::kupaldiz_name_of_id(*id, &mut words) };
            assert_eq!((made, words, name.id()), (ffi::DONE, name.words, Some(*id)));
            assert_eq!(name.as_str().map(str::parse), Some(Ok(*name)));
        }
        assert!(names.windows(2).all(|pair| pair[0] < pair[1]));
    }
}
