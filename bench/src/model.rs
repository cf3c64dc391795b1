//! Document 01, Steps 1 to 8: the system, changed in place by each step. It looks at no soundness: no step leads from a fresh system to one that is not sound.

use crate::given::{Answer, Number, Outcome, Returned};
use crate::handling::Handled;
use crate::issue::admitted;
use crate::list::List;
use crate::record::{in_limits, Instruction, Step};
use crate::rows::Row;
use crate::site::{Access, Kind, Message, Reply, Request, Site, Sizes, Words, MOST_LINES, MOST_MESSAGES, MOST_SITES};

#[derive(Clone, Copy, Debug, PartialEq)]
pub struct System {
    pub sizes: Sizes,
    pub memory: [Words; MOST_LINES],
    pub sites: [Site; MOST_SITES],
    pub up: List<Message<Request>, MOST_MESSAGES>,
    /// Memory's incoming queue.
    pub requests: List<Message<Request>, MOST_MESSAGES>,
    /// Memory's outgoing queue.
    pub replies: List<Message<Reply>, MOST_MESSAGES>,
    pub down: List<Message<Reply>, MOST_MESSAGES>,
}

type Given = Result<Option<Answer>, Number>;

impl System {
    /// Parts 7: 0 throughout memory, and nothing anywhere else; `None` is 12, a size that is not within its limits.
    pub fn fresh(sizes: [u32; 6]) -> Option<System> {
        if !in_limits(sizes) {
            return None;
        }
        let [sites, words, lines, sets, pend, stall] = sizes.map(|size| size as u8);
        Some(System {
            sizes: Sizes { sites, words, lines, sets, pend, stall },
            memory: Default::default(),
            sites: std::array::from_fn(|number| Site { number: number as u8, ..Site::default() }),
            up: List::default(),
            requests: List::default(),
            replies: List::default(),
            down: List::default(),
        })
    }

    /// A refusal changes nothing.
    pub fn step(&mut self, step: Step) -> Outcome {
        self.step_seen(step, &mut |_| ())
    }

    /// The step, and `seen` is told the rule row that it meets, one that ends in 7 or 9 too.
    pub fn step_seen(&mut self, step: Step, seen: &mut impl FnMut(Row)) -> Outcome {
        match self.given(step, seen) {
            Ok(answer) => Outcome::Done(answer),
            Err(number) => Outcome::Refused(number),
        }
    }

    /// Outstanding instructions, of all sites.
    pub fn outstanding(&self) -> usize {
        self.sites.iter().map(|site| site.outstanding().count()).sum()
    }

    /// Messages under way, wherever they stand.
    pub fn messages(&self) -> usize {
        let at_sites: usize = self.sites.iter().map(|site| site.outgoing.len() + site.incoming.len()).sum();
        at_sites + self.up.len() + self.requests.len() + self.replies.len() + self.down.len()
    }

    fn given(&mut self, step: Step, seen: &mut impl FnMut(Row)) -> Given {
        let row = match step {
            Step::Issue { site, tag, instruction } => return self.issue(site, tag, instruction, seen),
            Step::Retry(site) => return self.retry(site, seen),
            Step::Take(site) => return self.take(site, seen),
            Step::Send(site) => self.send(site)?,
            Step::ArriveMemory(position) => self.arrive_memory(position)?,
            Step::Serve => self.serve()?,
            Step::SendBack => self.send_back()?,
            Step::ArriveSite(position) => self.arrive_site(position)?,
        };
        seen(row);
        Ok(None)
    }

    fn site(&mut self, site: u32) -> Result<&mut Site, Number> {
        self.sites[..usize::from(self.sizes.sites)].get_mut(site as usize).ok_or(Number::NoSuchSite)
    }

    /// 2, 4, 5, 6, 7. A fence is acknowledged in the same step, and the state stays (Issue 6).
    fn issue(&mut self, site: u32, tag: u32, instruction: Instruction, seen: &mut impl FnMut(Row)) -> Given {
        let sizes = self.sizes;
        let site = self.site(site)?;
        let (first, second) = instruction.addresses();
        let (Some(at), Some(_)) = (sizes.address(first), sizes.address(second)) else {
            return Err(Number::AddressPastLast);
        };
        admitted(site, tag, instruction, at)?;
        let kind = match instruction {
            Instruction::Loadl(_) => Kind::Loadl,
            Instruction::Storel(_, value) => Kind::Storel(value),
            Instruction::Commit(_) => Kind::Commit,
            Instruction::Reconcile(_) => Kind::Reconcile,
            Instruction::Fence(number, ..) => {
                seen([Row::FenceRr, Row::FenceRw, Row::FenceWr, Row::FenceWw][number as usize - 4]);
                return Ok(Some(site.answer(tag, Returned::Ack)));
            }
        };
        let access = Access { tag, at, kind };
        let (row, handled) = site.handle(sizes, access);
        seen(row);
        match handled {
            Handled::Done(answer) => Ok(answer),
            Handled::MustWait if site.stall.len() == usize::from(sizes.stall) => Err(Number::StallQueueFull),
            Handled::MustWait => {
                site.stall.push(access);
                Ok(None)
            }
        }
    }

    /// 2, 8, 9. The first stalled instruction meets the rules of Handling again; where it has to wait on, nothing is changed (Steps 2). Figure 4-4 is
    /// not looked at again.
    pub(crate) fn retry(&mut self, site: u32, seen: &mut impl FnMut(Row)) -> Given {
        let sizes = self.sizes;
        let site = self.site(site)?;
        let head = *site.stall.first().ok_or(Number::NothingThere)?;
        let (row, handled) = site.handle(sizes, head);
        seen(row);
        let Handled::Done(answer) = handled else {
            return Err(Number::MustStillWait);
        };
        site.stall.remove(0);
        Ok(answer)
    }

    /// Steps 3: the first of the site's outgoing queue goes to the end of the up network.
    pub(crate) fn send(&mut self, site: u32) -> Result<Row, Number> {
        let request = self.site(site)?.outgoing.remove(0).ok_or(Number::NothingThere)?;
        self.up.push(request);
        Ok(Row::Send)
    }

    /// Steps 4: a message of the up network goes to the end of memory's incoming queue.
    pub(crate) fn arrive_memory(&mut self, position: u32) -> Result<Row, Number> {
        let request = self.up.remove(position as usize).ok_or(Number::NothingThere)?;
        self.requests.push(request);
        Ok(if position == 0 { Row::ArriveMemoryFirst } else { Row::ArriveMemoryLater })
    }

    /// Serve 1, 2: a fetch gets the line's words back. Of a write-back memory takes over each Dirty word, no Clean one, and gives an
    /// acknowledgement with nothing in it.
    pub(crate) fn serve(&mut self) -> Result<Row, Number> {
        let Message { site, line, body } = self.requests.remove(0).ok_or(Number::NothingThere)?;
        let words = &mut self.memory[usize::from(line)];
        let (row, body) = match body {
            Request::Fetch => (Row::ServeFetch, Reply::Line(*words)),
            Request::WriteBack(cell) => {
                cell.store_dirty_into(words);
                (Row::ServeWriteBack, Reply::Acknowledgement)
            }
        };
        self.replies.push(Message { site, line, body });
        Ok(row)
    }

    /// Steps 6: the first of memory's outgoing queue goes to the end of the down network.
    pub(crate) fn send_back(&mut self) -> Result<Row, Number> {
        let reply = self.replies.remove(0).ok_or(Number::NothingThere)?;
        self.down.push(reply);
        Ok(Row::SendBack)
    }

    /// Steps 7: a message of the down network goes to its own site.
    pub(crate) fn arrive_site(&mut self, position: u32) -> Result<Row, Number> {
        let reply = self.down.remove(position as usize).ok_or(Number::NothingThere)?;
        self.sites[usize::from(reply.site)].incoming.push(reply);
        Ok(if position == 0 { Row::ArriveSiteFirst } else { Row::ArriveSiteLater })
    }

    /// Steps 8: the site takes the first reply that came in.
    pub(crate) fn take(&mut self, site: u32, seen: &mut impl FnMut(Row)) -> Given {
        let sizes = self.sizes;
        let site = self.site(site)?;
        let reply = site.incoming.remove(0).ok_or(Number::NothingThere)?;
        let (row, answer) = site.take(sizes, reply);
        seen(row);
        Ok(answer)
    }
}
