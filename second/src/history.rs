//! A signal since reset, looked up by the index of its instant.

/// How far back anything ever looks.
const REACH: usize = 32;

/// When this many values are kept, all but the last `REACH` are dropped.
const MOST_KEPT: usize = 1 << 16;

/// All values of one signal since reset. Values that no formula can reach any
/// more are dropped now and then; indices go on counting from reset.
#[derive(Clone, Debug, Default, PartialEq, Eq)]
pub struct History {
    dropped: usize,
    kept: Vec<i32>,
}

impl History {
    /// A signal of which only the last values are known, oldest first. The
    /// others within reach are 0.
    pub fn ending(last: &[i32]) -> History {
        let mut kept = vec![0; REACH - last.len()];
        kept.extend(last);
        History { dropped: 0, kept }
    }

    /// The last values, oldest first.
    pub fn last<const N: usize>(&self) -> [i32; N] {
        std::array::from_fn(|place| self.before(self.len(), N - place))
    }

    /// The number of values since reset, which is the index of the next one.
    pub fn len(&self) -> usize {
        self.dropped + self.kept.len()
    }

    /// Whether nothing has been added since reset.
    pub fn is_empty(&self) -> bool {
        self.len() == 0
    }

    /// Adds the value of the present instant.
    pub fn push(&mut self, value: i32) {
        if self.kept.len() == MOST_KEPT {
            let surplus = MOST_KEPT - REACH;
            self.kept.drain(..surplus);
            self.dropped += surplus;
        }
        self.kept.push(value);
    }

    /// The value `back` instants before instant `now`; 0 before reset.
    pub fn before(&self, now: usize, back: usize) -> i32 {
        if back > now {
            return 0;
        }
        self.kept[now - back - self.dropped]
    }

    /// Makes every value so far 0 (only a wrong codec does this).
    pub fn forget(&mut self) {
        self.kept.fill(0);
    }
}
