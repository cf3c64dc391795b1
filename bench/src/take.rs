//! Document 01, Take 1 to 9: what a site does with the first reply that came in, and which rule row that is.

use crate::given::{Answer, Returned};
use crate::rows::Row;
use crate::site::{Access, Cached, Cell, Entry, Kind, Message, Reply, Request, Site, Sizes, Words};

impl Site {
    /// Take 1: the reply's line tells its entry.
    pub fn take(&mut self, sizes: Sizes, message: Message<Reply>) -> (Row, Option<Answer>) {
        let index = self.pend.iter().position(|entry| entry.line() == message.line).expect("a reply has its pend entry");
        match self.pend[index] {
            Entry::For(access, kept) => {
                let (row, returned) = self.finish(sizes, index, access, kept, message.body);
                (row, Some(self.answer(access.tag, returned)))
            }
            Entry::Voluntary(_) => {
                self.pend.remove(index);
                (Row::TakeVoluntary, None)
            }
        }
    }

    /// Take 2 to 5. A Loadl's words go into the cache as Clean ones, and its word is the answer; a Storel's too, but for its own word, which is
    /// Dirty. A Commit's words return from its entry to the cache as Clean ones. After a Reconcile nothing is cached.
    fn finish(&mut self, sizes: Sizes, index: usize, access: Access, kept: Words, reply: Reply) -> (Row, Returned) {
        match (access.kind, reply) {
            (Kind::Loadl, Reply::Line(words)) => {
                let cell = Cell::clean(words);
                let row = self.put_in_cache(sizes, index, cell, [Row::TakeLoadlEmpty, Row::TakeLoadlClean, Row::TakeLoadlDirty]);
                (row, Returned::Value(cell.word(access.at.word)))
            }
            (Kind::Storel(value), Reply::Line(words)) => {
                let mut cell = Cell::clean(words);
                cell.store(access.at.word, value);
                (self.put_in_cache(sizes, index, cell, [Row::TakeStorelEmpty, Row::TakeStorelClean, Row::TakeStorelDirty]), Returned::Ack)
            }
            (Kind::Commit, Reply::Acknowledgement) => {
                let cell = Cell::clean(kept);
                (self.put_in_cache(sizes, index, cell, [Row::TakeCommitEmpty, Row::TakeCommitClean, Row::TakeCommitDirty]), Returned::Ack)
            }
            (Kind::Reconcile, Reply::Acknowledgement) => {
                self.pend.remove(index);
                (Row::TakeReconcile, Returned::Ack)
            }
            _ => unreachable!("a reply is of its entry's kind"),
        }
    }

    /// Take 7 to 9. Where the line drove nothing out, or a line without a Dirty word, the entry goes, and later ones close the gap. A line with a
    /// Dirty word that was driven out is written back, and an entry for it that no instruction asked for, with no words and no tag, takes the old
    /// entry's position.
    fn put_in_cache(&mut self, sizes: Sizes, index: usize, cell: Cell, [empty, clean, dirty]: [Row; 3]) -> Row {
        let line = self.pend[index].line();
        match self.place(sizes, line).replace(Cached { line, cell }) {
            Some(displaced) if !displaced.cell.all_clean() => {
                self.pend[index] = Entry::Voluntary(displaced.line);
                self.request(displaced.line, Request::WriteBack(displaced.cell));
                dirty
            }
            dropped => {
                self.pend.remove(index);
                if dropped.is_some() {
                    clean
                } else {
                    empty
                }
            }
        }
    }
}
