//! Names, their tree, and sets of names.

/// The most names a job may have, with 0 and 1.
pub const NAMES: usize = 64;

/// The declared names. Name 0 is "no key", name 1 the top.
#[derive(Clone, Debug, PartialEq, Eq)]
pub struct Names {
    count: usize,
    upper: [u8; NAMES],
    /// For each name, the set of itself and of every name above it.
    up: [u64; NAMES],
    host: u64,
}

impl Default for Names {
    fn default() -> Self {
        let mut up = [0; NAMES];
        up[1] = 1 << 1;
        Names { count: 2, upper: [0; NAMES], up, host: 0 }
    }
}

impl Names {
    /// Adds the next name below `upper`, which is declared and not 0.
    pub fn declare(&mut self, upper: u8, host: bool) -> u8 {
        let name = self.count;
        self.upper[name] = upper;
        self.up[name] = self.up[upper as usize] | 1 << name;
        self.host |= (host as u64) << name;
        self.count += 1;
        name as u8
    }

    /// The number of names, with 0 and 1.
    pub fn count(&self) -> usize {
        self.count
    }

    /// Whether there is no room for one more name.
    pub fn is_full(&self) -> bool {
        self.count == NAMES
    }

    /// Every declared name as a set, without 0.
    pub fn all(&self) -> u64 {
        (u64::MAX >> (NAMES - self.count)) & !1
    }

    /// The host names as a set.
    pub fn host(&self) -> u64 {
        self.host
    }

    /// The local names as a set.
    pub fn local(&self) -> u64 {
        self.all() & !self.host & !2
    }

    /// The upper name of a name from 2 on.
    pub fn upper(&self, name: u8) -> u8 {
        self.upper[name as usize]
    }

    /// Whether name `a` is below name `b`.
    pub fn below(&self, a: u8, b: u8) -> bool {
        a == 0 || self.up[a as usize] >> b & 1 == 1
    }

    /// Whether set `a` is below set `b`.
    pub fn set_below(&self, a: u64, b: u64) -> bool {
        bits(a).all(|name| self.up[name as usize] & b != 0)
    }

    /// The set without 0 and without every name that lies below another of the set.
    pub fn reduce(&self, set: u64) -> u64 {
        let set = set & !1;
        keep(set, |name| self.up[name as usize] & set == 1 << name)
    }

    /// The set without the names below `granted`.
    pub fn without(&self, set: u64, granted: u8) -> u64 {
        keep(set, |name| !self.below(name, granted))
    }

    /// The set with the upper name of `name` in place of `name`.
    pub fn raise(&self, set: u64, name: u8) -> u64 {
        match set >> name & 1 {
            0 => set,
            _ => self.reduce(set & !(1 << name) | 1 << self.upper(name)),
        }
    }
}

/// The names of a set, lowest first.
pub fn bits(mut set: u64) -> impl Iterator<Item = u8> {
    std::iter::from_fn(move || {
        let name = set.trailing_zeros() as u8;
        set &= set.wrapping_sub(1);
        (name < 64).then_some(name)
    })
}

fn keep(set: u64, test: impl Fn(u8) -> bool) -> u64 {
    bits(set).filter(|&name| test(name)).fold(0, |kept, name| kept | 1 << name)
}
