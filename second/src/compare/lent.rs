//! Lent buffers with canaries around them, and the first element that is not as it should be.

use std::fmt::{self, Display};

use crate::random::Random;

/// How many canaries stand in front of a lent buffer, and how many behind it.
pub const CANARIES: usize = 256;

/// What a buffer holds before a call.
#[derive(Clone, Copy, Debug, PartialEq, Eq)]
pub enum Dirt {
    /// Every bit is one.
    Ones,
    /// Random elements from a seed.
    Noise(u64),
}

impl Dirt {
    /// So many elements of dirt.
    fn elements<T: Element>(self, count: usize) -> Vec<T> {
        match self {
            Dirt::Ones => vec![T::noise(u64::MAX); count],
            Dirt::Noise(seed) => {
                let mut random = Random::new(seed);
                (0..count).map(|_| T::noise(random.bits())).collect()
            }
        }
    }
}

/// What a buffer may consist of.
pub trait Element: Copy + PartialEq {
    /// How many elements are shown on each side of one that differs.
    const AROUND: usize;

    /// An element of dirt; as a byte or a second it is none that a call would write.
    fn noise(bits: u64) -> Self;

    /// Elements as text.
    fn shown(elements: &[Self]) -> String;
}

impl Element for u8 {
    const AROUND: usize = 16;

    fn noise(bits: u64) -> Self {
        bits as u8 | 1 << 7
    }

    fn shown(elements: &[Self]) -> String {
        format!("\"{}\"", elements.escape_ascii())
    }
}

impl Element for u32 {
    const AROUND: usize = 3;

    fn noise(bits: u64) -> Self {
        bits as u32 | 1 << 31
    }

    fn shown(elements: &[Self]) -> String {
        format!("{elements:?}")
    }
}

impl Element for u64 {
    const AROUND: usize = 3;

    fn noise(bits: u64) -> Self {
        bits
    }

    fn shown(elements: &[Self]) -> String {
        format!("{elements:?}")
    }
}

/// Something that is not as it should be.
#[derive(Clone, Debug, PartialEq, Eq)]
pub struct Difference {
    pub place: String,
    pub expected: String,
    pub came: String,
}

impl Display for Difference {
    fn fmt(&self, formatter: &mut fmt::Formatter) -> fmt::Result {
        writeln!(formatter, "  differs:  {}", self.place)?;
        writeln!(formatter, "  expected: {}", self.expected)?;
        writeln!(formatter, "  came:     {}", self.came)
    }
}

/// The first index at which two runs of elements differ, or at which one of them ends.
pub fn first_different<T: Element>(expected: &[T], came: &[T]) -> Option<usize> {
    let mut pairs = expected.iter().zip(came);
    let shorter = expected.len().min(came.len());
    let at = pairs.position(|(one, other)| one != other);
    at.or((expected.len() != came.len()).then_some(shorter))
}

/// The element at an index, or that there is none, and a few around it, as text.
pub fn shown_around<T: Element>(elements: &[T], at: usize) -> String {
    let here = match elements.get(at) {
        Some(&element) => T::shown(&[element]),
        None => "the end".to_string(),
    };
    let first = at.saturating_sub(T::AROUND);
    let end = elements.len().min(at + T::AROUND + 1);
    let [before, after] = [first > 0, end < elements.len()].map(|cut| if cut { ".." } else { "" });
    let around = T::shown(&elements[first..end]);
    format!("{here} in {before}{around}{after}")
}

/// For whom a buffer is taken.
#[derive(Clone, Copy, PartialEq, Eq)]
pub enum Side {
    /// For the library, which is lent the buffer itself.
    Library,
    /// For the second program, which makes its copy what the buffer should become.
    Second,
}

/// A lent buffer in the middle of its canaries, twice.
pub struct Lent<T> {
    name: &'static str,
    /// The buffer that the library is lent, canaries included.
    pub came: Vec<T>,
    /// What that should become.
    expected: Vec<T>,
}

impl<T: Element> Lent<T> {
    /// A buffer of dirt to be written.
    pub fn dirty(name: &'static str, length: usize, dirt: Dirt) -> Self {
        let came = dirt.elements(length + 2 * CANARIES);
        let expected = came.clone();
        Lent {
            name,
            came,
            expected,
        }
    }

    /// A buffer to be read, which nobody may change.
    pub fn holding(name: &'static str, content: &[T], dirt: Dirt) -> Self {
        let mut lent = Lent::dirty(name, content.len(), dirt);
        lent.side(Side::Library).copy_from_slice(content);
        lent.side(Side::Second).copy_from_slice(content);
        lent
    }

    /// The lent part of one side's buffer.
    pub fn side(&mut self, side: Side) -> &mut [T] {
        let whole = match side {
            Side::Library => &mut self.came,
            Side::Second => &mut self.expected,
        };
        let end = whole.len() - CANARIES;
        &mut whole[CANARIES..end]
    }

    /// The first element, canaries included, that is not what it should be.
    pub fn difference(&self) -> Option<Difference> {
        let at = first_different(&self.expected, &self.came)?;
        Some(Difference {
            place: self.place(at),
            expected: shown_around(&self.expected, at),
            came: shown_around(&self.came, at),
        })
    }

    /// Where an element stands, seen from the lent part.
    fn place(&self, at: usize) -> String {
        let name = self.name;
        let length = self.expected.len() - 2 * CANARIES;
        if at < CANARIES {
            format!("the canary {} in front of {name}", CANARIES - at)
        } else if at < CANARIES + length {
            format!("{name}[{}], lent with a length of {length}", at - CANARIES)
        } else {
            let beyond = at - CANARIES - length + 1;
            format!("the canary {beyond} behind {name}, lent with a length of {length}")
        }
    }
}
