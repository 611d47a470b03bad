//! The history list and its pointer (4.6).

/// How many entries are held; the oldest goes first.
const LIMIT: usize = 16;

#[derive(Clone, Debug, Default)]
pub struct History {
    entries: Vec<Vec<u8>>,
    /// How many entries can still be gone back to.
    pointer: usize,
}

impl History {
    /// A branch drops what was gone back from and adds the unit left.
    pub fn branch(&mut self, left: Option<Vec<u8>>) {
        self.entries.truncate(self.pointer);
        self.entries.extend(left);
        if self.entries.len() > LIMIT {
            self.entries.remove(0);
        }
        self.pointer = self.entries.len();
    }

    /// Takes the entry at the pointer and moves the pointer down.
    pub fn back(&mut self) -> Option<&[u8]> {
        self.pointer = self.pointer.checked_sub(1)?;
        Some(&self.entries[self.pointer])
    }
}
