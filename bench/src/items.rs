//! The items of the workloads.

use crate::random::Random;

/// What the workloads need of an item.
pub trait Item: Ord + Copy {
    /// What is written of an item. Outputs are compared by it.
    type Mark: Copy + Default + Ord;

    fn draw(random: &mut Random) -> Self;

    fn mark(&self) -> Self::Mark;

    /// Whether a retain keeps the item: of numbers the odd ones, of others all.
    fn is_kept(&self) -> bool {
        true
    }

    /// A number less by the low bits of another, a 64th of all numbers at most. Other items stay as they are.
    fn lowered(&self, _by: &Self) -> Self {
        *self
    }
}

/// Orders a type by a function alone.
macro_rules! ordered {
    ($type:ident, $compare:expr) => {
        impl Ord for $type {
            fn cmp(&self, other: &Self) -> std::cmp::Ordering {
                $compare(self, other)
            }
        }

        impl PartialOrd for $type {
            fn partial_cmp(&self, other: &Self) -> Option<std::cmp::Ordering> {
                Some(self.cmp(other))
            }
        }

        impl PartialEq for $type {
            fn eq(&self, other: &Self) -> bool {
                self.cmp(other).is_eq()
            }
        }

        impl Eq for $type {}
    };
}

pub(crate) use ordered;

impl Item for i64 {
    type Mark = i64;

    fn draw(random: &mut Random) -> i64 {
        random.number() as i64
    }

    fn mark(&self) -> i64 {
        *self
    }

    fn is_kept(&self) -> bool {
        self & 1 != 0
    }

    fn lowered(&self, by: &i64) -> i64 {
        self.wrapping_sub(by & 0x03ff_ffff_ffff_ffff)
    }
}

/// An item of 64 bytes. The key alone is compared.
#[repr(C)]
#[derive(Clone, Copy)]
pub struct Record {
    key: i64,
    words: [u64; 7],
}

ordered!(Record, |one: &Record, other: &Record| one
    .key
    .cmp(&other.key));

impl Item for Record {
    /// All words, since `==` reads the key alone.
    type Mark = [u64; 8];

    fn draw(random: &mut Random) -> Record {
        let key = random.number() as i64;
        let words = [(); 7].map(|()| random.number());
        Record { key, words }
    }

    fn mark(&self) -> [u64; 8] {
        let [a, b, c, d, e, f, g] = self.words;
        [self.key as u64, a, b, c, d, e, f, g]
    }
}
