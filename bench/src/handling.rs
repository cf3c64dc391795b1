//! Document 01, Handling 1 to 12: what a site does with an instruction that is issued or retried, and which rule row that is.

use crate::given::{Answer, Returned};
use crate::rows::Row;
use crate::site::{Access, Cell, Entry, Kind, Request, Site, Sizes, Words, MOST_WORDS};

pub enum Handled {
    Done(Option<Answer>),
    /// Nothing was changed; the caller decides what waiting is.
    MustWait,
}

const NO_DATA: Words = [0; MOST_WORDS];

impl Site {
    pub fn handle(&mut self, sizes: Sizes, access: Access) -> (Row, Handled) {
        match access.kind {
            Kind::Loadl => self.loadl(sizes, access),
            Kind::Storel(value) => self.storel(sizes, access, value),
            Kind::Commit => self.commit(sizes, access),
            Kind::Reconcile => self.reconcile(sizes, access),
        }
    }

    /// Handling 2, 3: a cached word is the answer. Without the line a fetch is sent and an entry kept for it, or, where no entry is free or the
    /// line pends already, it has to wait.
    fn loadl(&mut self, sizes: Sizes, access: Access) -> (Row, Handled) {
        match self.cached(sizes, access.at.line) {
            Some(cell) => {
                let value = cell.word(access.at.word);
                (Row::LoadlHit, Handled::Done(Some(self.answer(access.tag, Returned::Value(value)))))
            }
            None => self.fetch(sizes, access, [Row::LoadlLinePending, Row::LoadlPendFull, Row::LoadlFetch]),
        }
    }

    /// Handling 4, 5: a cached word is overwritten and becomes Dirty. Without the line it goes the way of a Loadl, and its entry holds the value.
    fn storel(&mut self, sizes: Sizes, access: Access, value: u32) -> (Row, Handled) {
        match self.cached(sizes, access.at.line) {
            Some(cell) => {
                cell.store(access.at.word, value);
                (Row::StorelHit, self.acknowledged(access))
            }
            None => self.fetch(sizes, access, [Row::StorelLinePending, Row::StorelPendFull, Row::StorelFetch]),
        }
    }

    fn fetch(&mut self, sizes: Sizes, access: Access, [line_pending, pend_full, fetch]: [Row; 3]) -> (Row, Handled) {
        let line = access.at.line;
        if self.is_pending(line) {
            return (line_pending, Handled::MustWait);
        }
        if self.pend_is_full(sizes) {
            return (pend_full, Handled::MustWait);
        }
        self.pend.push(Entry::For(access, NO_DATA));
        self.request(line, Request::Fetch);
        (fetch, Handled::Done(None))
    }

    /// Handling 6 to 8: a Clean word needs nothing. A Dirty one sends the whole line with its marks to memory, and an entry keeps the line
    /// meanwhile; without a free entry it has to wait.
    fn commit(&mut self, sizes: Sizes, access: Access) -> (Row, Handled) {
        let Some(cell) = self.cached(sizes, access.at.line).copied() else {
            return self.not_cached(access, [Row::CommitLinePending, Row::CommitNotCached]);
        };
        if !cell.is_dirty(access.at.word) {
            return (Row::CommitClean, self.acknowledged(access));
        }
        if self.pend_is_full(sizes) {
            return (Row::CommitPendFull, Handled::MustWait);
        }
        self.leave(sizes, access, cell, cell.words);
        (Row::CommitWriteBack, Handled::Done(None))
    }

    /// Handling 9 to 12: a Dirty word needs nothing. A line without a Dirty word is dropped. Where only other words are Dirty the line goes
    /// to memory and out of the cache, and an entry waits for that with no words of its own; without a free entry it has to wait.
    fn reconcile(&mut self, sizes: Sizes, access: Access) -> (Row, Handled) {
        let Some(cell) = self.cached(sizes, access.at.line).copied() else {
            return self.not_cached(access, [Row::ReconcileLinePending, Row::ReconcileNotCached]);
        };
        if cell.is_dirty(access.at.word) {
            return (Row::ReconcileDirty, self.acknowledged(access));
        }
        if cell.all_clean() {
            *self.place(sizes, access.at.line) = None;
            return (Row::ReconcileDrop, self.acknowledged(access));
        }
        if self.pend_is_full(sizes) {
            return (Row::ReconcilePendFull, Handled::MustWait);
        }
        self.leave(sizes, access, cell, NO_DATA);
        (Row::ReconcileWriteBack, Handled::Done(None))
    }

    /// Handling 7, 12: without the line there is nothing to do, unless it pends: then wait. Full pend entries do not matter: none is added.
    fn not_cached(&self, access: Access, [line_pending, acknowledged]: [Row; 2]) -> (Row, Handled) {
        if self.is_pending(access.at.line) {
            (line_pending, Handled::MustWait)
        } else {
            (acknowledged, self.acknowledged(access))
        }
    }

    /// The line goes from the cache into a write-back that the instruction waits for.
    fn leave(&mut self, sizes: Sizes, access: Access, cell: Cell, kept: Words) {
        let line = access.at.line;
        *self.place(sizes, line) = None;
        self.pend.push(Entry::For(access, kept));
        self.request(line, Request::WriteBack(cell));
    }

    /// A line pends for a voluntary entry as it does for any other.
    fn is_pending(&self, line: u8) -> bool {
        self.pend.iter().any(|entry| entry.line() == line)
    }

    fn pend_is_full(&self, sizes: Sizes) -> bool {
        self.pend.len() == usize::from(sizes.pend)
    }

    fn acknowledged(&self, access: Access) -> Handled {
        Handled::Done(Some(self.answer(access.tag, Returned::Ack)))
    }
}
