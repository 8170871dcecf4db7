//! Holds one answer of the library, and what it did to the lent rows, to the straightforward answer.

use crate::guarded::{Entry, Guarded};
use crate::tally::Tally;
use quailribbon_bench::answers::Answer;
use std::fmt::Debug;

/// A difference in full: the function, the input, both answers.
pub type Difference = String;

pub struct Check<'a> {
    pub input: &'a dyn Debug,
    pub tally: &'a mut Tally,
}

impl Check<'_> {
    /// Equal answers, and the row that was read is as it was.
    pub fn answer<A: Answer, T: Entry>(
        &mut self,
        function: &'static str,
        read: &Guarded<T>,
        row: &[T],
        ours: A,
        straight: A,
    ) -> Result<(), Difference> {
        if ours != straight {
            let answers = format!("library: {ours:?}\nstraight: {straight:?}");
            return Err(self.difference(function, &answers));
        }
        if let Some(change) = read.differs_from(row) {
            let change = format!("the row that is read was changed: {change}");
            return Err(self.difference(function, &change));
        }
        self.tally.add(function, straight.number());
        Ok(())
    }

    /// The lent buffer has exactly this in front and is otherwise as it was.
    pub fn written<T: Entry>(
        &self,
        function: &'static str,
        lent: &Guarded<T>,
        written: &[T],
    ) -> Result<(), Difference> {
        match lent.differs_from(written) {
            None => Ok(()),
            Some(change) => {
                let library = lent.lent();
                let buffers = format!(
                    "the lent buffer: {change}\nlibrary: {library:?}\nstraight: {written:?}"
                );
                Err(self.difference(function, &buffers))
            }
        }
    }

    fn difference(&self, function: &str, what: &str) -> Difference {
        format!("{function} differs\ninput: {:?}\n{what}", self.input)
    }
}
