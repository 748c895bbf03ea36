//! What an accepted change keeps of the other leaves, on any store, sound or not: the word of every cell outside the
//! key's leaf and the leaves joined with it, and the bytes of every page but theirs and the one newly taken.
use super::image::{depth_of, page_of};
use super::reading::{sibling, Reading};
use crate::cells::Cell;

/// A store before and after an accepted change of a key, given by its split bits.
pub struct Change<'a> {
    pub before: Reading<'a>,
    pub after: Reading<'a>,
    pub bits: Vec<bool>,
}

impl Change<'_> {
    /// That all of it is kept, or what is not.
    pub fn others_kept(&self) -> Result<(), String> {
        let (inside, outside): (Vec<Cell>, Vec<Cell>) =
            self.cells().into_iter().partition(|cell| cell.bits.starts_with(self.region()));
        if let Some(cell) = outside.iter().find(|cell| self.is_set(cell)) {
            return Err(format!("another leaf's word at {:?}", cell.bits));
        }
        if inside.iter().any(|cell| self.is_set(cell)) {
            if let Some(cell) = inside.iter().find(|cell| !self.gives_way(&cell.bits)) {
                return Err(format!("set over another leaf's word at {:?}", cell.bits));
            }
        }
        self.pages_kept(&inside)
    }

    /// The region that the change may set: the key's leaf, as it was or as it is, whichever is the larger.
    pub fn region(&self) -> &[bool] {
        let [x, y] = self.depths();
        &self.bits[..x.min(y)]
    }

    /// The pages that the change may alter and that were not free: that of the key's leaf, and that of the sibling with
    /// which it is joined.
    pub fn pages(&self) -> Vec<usize> {
        let [x, y] = self.depths();
        let own = page_of(self.before.word(&self.bits));
        let joined = (y < x).then(|| page_of(self.before.word(&sibling(&self.bits[..x])))).flatten();
        own.into_iter().chain(joined).collect()
    }

    /// The depths of the key's leaf before and after.
    fn depths(&self) -> [usize; 2] {
        [&self.before, &self.after].map(|store| depth_of(store.word(&self.bits)))
    }

    /// The cells of the deeper of the two directories.
    fn cells(&self) -> Vec<Cell> {
        self.before.cells.all(self.before.depth().max(self.after.depth()))
    }

    /// Whether a cell has another word than before.
    fn is_set(&self, cell: &Cell) -> bool {
        self.before.word(&cell.bits) != self.after.word(&cell.bits)
    }

    /// Whether a cell of the region held the word of the key's leaf, or of one joined with it: the sibling with a page,
    /// or an empty one above.
    fn gives_way(&self, string: &[bool]) -> bool {
        let [x, _] = self.depths();
        let word = self.before.word(string);
        if string.starts_with(&self.bits[..x]) {
            return word == self.before.word(&self.bits);
        }
        let common = string.iter().zip(&self.bits).take_while(|(bit, own)| bit == own).count();
        let joined = &string[..common + 1];
        depth_of(word) == joined.len()
            && word == self.before.word(joined)
            && page_of(word).is_some() == (joined.len() == x)
    }

    /// That every other page has its bytes, and that at most one page is newly taken, which was free.
    fn pages_kept(&self, inside: &[Cell]) -> Result<(), String> {
        let (before, after) = (self.before.image, self.after.image);
        let mut changed = self.pages();
        let set = inside.iter().filter(|cell| self.is_set(cell));
        let named = set.filter_map(|cell| page_of(self.after.word(&cell.bits)));
        let mut taken: Vec<usize> = named.filter(|g| !changed.contains(g)).collect();
        taken.sort();
        taken.dedup();
        if taken.len() > 1 || taken.iter().any(|&g| before.count(g) != 0) {
            return Err(format!("pages {taken:?} are taken"));
        }
        changed.extend(taken);
        let mut others = (0..self.before.model.page_limit).filter(|g| !changed.contains(g));
        match others.find(|&g| !before.same_page(after, g)) {
            Some(g) => Err(format!("page {g} of another leaf")),
            None => Ok(()),
        }
    }
}
