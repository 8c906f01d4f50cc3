//! Memory with a known pattern in it and around it, so that a comparison sees
//! every element that a call writes.

/// Elements before and after lent memory.
pub const GUARD: usize = 8;

/// Elements that a pattern is made of.
pub trait Element: Copy {
    /// The element at an index; the salt selects the pattern.
    fn pattern(salt: u64, index: usize) -> Self;
}

impl Element for u8 {
    fn pattern(salt: u64, index: usize) -> u8 {
        (salt as usize)
            .wrapping_mul(29)
            .wrapping_add(index.wrapping_mul(37)) as u8
    }
}

impl Element for u32 {
    fn pattern(salt: u64, index: usize) -> u32 {
        (salt as u32)
            .wrapping_mul(0x9E37_79B9)
            .wrapping_add((index as u32).wrapping_mul(0x0101_0107))
    }
}

impl Element for u64 {
    fn pattern(salt: u64, index: usize) -> u64 {
        salt.wrapping_mul(0x9E37_79B9_7F4A_7C15)
            .wrapping_add((index as u64).wrapping_mul(0x0101_0107_0B0D_1113))
    }
}

/// Memory with a pattern in it and around it.
#[derive(Clone, Debug, PartialEq, Eq)]
pub struct Guarded<T> {
    /// The lent memory with its guards.
    pub all: Vec<T>,
}

impl<T: Element> Guarded<T> {
    /// Memory of some length to lend, filled with the pattern.
    pub fn with_room(room: usize, salt: u64) -> Self {
        let all = (0..room + 2 * GUARD)
            .map(|index| T::pattern(salt, index))
            .collect();
        Guarded { all }
    }

    /// Memory to lend with these contents.
    pub fn with_contents(contents: &[T], salt: u64) -> Self {
        let mut guarded = Guarded::with_room(contents.len(), salt);
        guarded.lent_mut().copy_from_slice(contents);
        guarded
    }

    pub fn lent(&self) -> &[T] {
        &self.all[GUARD..self.all.len() - GUARD]
    }

    pub fn lent_mut(&mut self) -> &mut [T] {
        let end = self.all.len() - GUARD;
        &mut self.all[GUARD..end]
    }
}
