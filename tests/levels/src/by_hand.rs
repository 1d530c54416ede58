//! A comparison by hand is held against the proved one.
use crate::pairs::Pairs;
use crate::proved::Call;
use std::fmt;

/// A comparison by hand, right or wrong, and where it is tried.
pub struct ByHand {
    /// Whose it is, or what is wrong with it.
    pub what: &'static str,
    pub call: Call,
    pub pairs: Pairs,
    compare: Box<dyn Fn(u32, u32) -> bool>,
}

/// What was found on all pairs.
#[derive(Default)]
pub struct Found {
    pub pairs: u64,
    /// Those of which the proved comparison says that it holds.
    pub hold: u64,
    pub differences: u64,
    pub first: Option<(u32, u32)>,
}

impl ByHand {
    /// A comparison that stands for that call on those pairs.
    pub fn new(what: &'static str, call: Call, pairs: Pairs, compare: impl Fn(u32, u32) -> bool + 'static) -> ByHand {
        ByHand { what, call, pairs, compare: Box::new(compare) }
    }

    /// Which comparison it is, and of what.
    pub fn place(&self) -> String {
        format!("{}, {}", self.call.name(), self.pairs.name())
    }

    /// Compares what both say of each pair.
    pub fn try_on_pairs(&self, seed: u64) -> Found {
        let mut found = Found::default();
        for (a, b) in self.pairs.all(seed) {
            let proved = self.call.answer(a, b);
            found.pairs += 1;
            found.hold += u64::from(proved == u8::from(true));
            if proved != u8::from((self.compare)(a, b)) {
                found.differences += 1;
                found.first.get_or_insert((a, b));
            }
        }
        found
    }
}

impl fmt::Display for Found {
    /// How many differences, and where the first is.
    fn fmt(&self, out: &mut fmt::Formatter) -> fmt::Result {
        write!(out, "{} differences", self.differences)?;
        self.first.map_or(Ok(()), |(a, b)| write!(out, ", the first at {} and {}", a, b))
    }
}
