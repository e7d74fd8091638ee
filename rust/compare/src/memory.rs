//! Greatest values kept: those of one book that many inputs share, and of the book weighed last.

use reference::combinations::Values;
use reference::Book;
use std::rc::Rc;

/// A book with its greatest values.
type Weighed = (Book, Rc<Values>);

/// What has been weighed. It saves time alone: the values are those of `Values::of`.
#[derive(Default)]
pub struct Memory {
    shared: Option<Weighed>,
    last: Option<Weighed>,
}

impl Memory {
    /// Keeps the values of a book until another is shared.
    pub fn share(&mut self, book: &Book, values: &Rc<Values>) {
        self.shared = Some((book.clone(), values.clone()));
    }

    /// The greatest values of a sound book.
    pub fn values(&mut self, book: &Book) -> Rc<Values> {
        let mut kept = self.shared.iter().chain(&self.last);
        if let Some((_, values)) = kept.find(|(known, _)| known == book) {
            return values.clone();
        }
        let values = Rc::new(Values::of(book));
        self.last = Some((book.clone(), values.clone()));
        values
    }
}
