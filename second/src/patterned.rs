//! A result slice with a pattern in it, so that a write of a refused call and
//! an entry that an accepted one left out are seen.

use std::fmt::Debug;

/// No result holds this byte: it is no support, no verdict, and four of them
/// are no value of a grid.
pub const BYTE_PATTERN: u8 = 0xA5;
pub const GRID_PATTERN: i32 = i32::from_ne_bytes([BYTE_PATTERN; 4]);

pub struct Patterned<T> {
    name: &'static str,
    pattern: T,
    cells: Vec<T>,
}

impl<T: Copy + PartialEq + Debug> Patterned<T> {
    pub fn new(name: &'static str, length: usize, pattern: T) -> Self {
        Patterned { name, pattern, cells: vec![pattern; length] }
    }

    /// The slice that is lent to the subject.
    pub fn lent(&mut self) -> &mut [T] {
        &mut self.cells
    }

    /// What differs from the expected content, or from the untouched pattern
    /// where nothing may be written.
    pub fn difference(&self, expected: Option<&[T]>) -> Option<String> {
        let (name, content) = (self.name, &self.cells);
        let Some(expected) = expected else {
            let touched = content.iter().position(|cell| *cell != self.pattern)?;
            return Some(format!("{name}[{touched}] is written though refused"));
        };
        // An accepted call's slices are as long as its answer.
        let at = content.iter().zip(expected).position(|(given, asked)| given != asked)?;
        Some(format!("{name}[{at}] is {:?}, not {:?}", content[at], expected[at]))
    }
}

#[cfg(test)]
mod tests {
    use super::*;

    #[test]
    fn writes_are_seen() {
        let mut grid = Patterned::new("grid", 3, GRID_PATTERN);
        assert_eq!(grid.difference(None), None);
        grid.lent().copy_from_slice(&[1, 2, 3]);
        assert_eq!(grid.difference(Some(&[1, 2, 3])), None);
        assert_eq!(grid.difference(Some(&[1, 5, 3])), Some("grid[1] is 2, not 5".into()));
        assert_eq!(grid.difference(None), Some("grid[0] is written though refused".into()));
    }
}
