/// A buffer to lend, filled with a pattern. It has a margin on either side, so
/// that a write beside the lent part is seen as well.
#[derive(Clone, Debug, PartialEq)]
pub struct Lent<T> {
    cells: Vec<T>,
}

const MARGIN: usize = 8;

impl<T: PartialEq + From<u8>> Lent<T> {
    pub fn new(length: usize) -> Self {
        Self {
            cells: (0..length + 2 * MARGIN).map(pattern).collect(),
        }
    }

    /// Holds these entries instead of the pattern.
    pub fn holding(entries: &[T]) -> Self
    where
        T: Copy,
    {
        let mut lent = Self::new(entries.len());
        lent.part().copy_from_slice(entries);
        lent
    }

    pub fn part(&mut self) -> &mut [T] {
        let end = self.cells.len() - MARGIN;
        &mut self.cells[MARGIN..end]
    }

    /// The part, to be read.
    pub fn entries(&self) -> &[T] {
        let end = self.cells.len() - MARGIN;
        &self.cells[MARGIN..end]
    }

    /// Whether all but the first entries of the lent part are unchanged.
    pub fn kept_after(&self, entries: usize) -> bool {
        let written = MARGIN..MARGIN + entries;
        let mut cells = self.cells.iter().enumerate();
        cells.all(|(place, cell)| *cell == pattern(place) || written.contains(&place))
    }
}

fn pattern<T: From<u8>>(place: usize) -> T {
    T::from((place * 37 + 101) as u8)
}
