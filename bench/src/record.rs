//! Document 01, Record 1 to 7: numbers, sizes and steps, read and written.

/// A record is at most so many bytes long.
pub const MOST_BYTES: usize = 65_536;

/// The least and the most of each size, in the document's order.
pub const LIMITS: [(u32, u32); 6] = [(1, 4), (1, 4), (1, 16), (1, 8), (1, 5), (1, 8)];

/// Why a record is not read or not written: the document's numbers 10 (with the place), 11, 12 and 13. A reader never gives 11.
#[derive(Clone, Copy, Debug, PartialEq, Eq)]
pub enum Refusal {
    NoRecord(usize),
    BufferShort,
    SizeOutside,
    RecordLong,
}

#[derive(Clone, Copy, Debug, PartialEq, Eq)]
pub enum Instruction {
    Loadl(u32),
    Storel(u32, u32),
    Commit(u32),
    Reconcile(u32),
    /// The fence's number, 4 to 7 for rr, rw, wr, ww, and its two addresses.
    Fence(u32, u32, u32),
}

impl Instruction {
    pub fn number(self) -> u32 {
        match self {
            Instruction::Loadl(_) => 0,
            Instruction::Storel(..) => 1,
            Instruction::Commit(_) => 2,
            Instruction::Reconcile(_) => 3,
            Instruction::Fence(number, ..) => number,
        }
    }

    /// Its first and its last address, the same where there is one.
    pub fn addresses(self) -> (u32, u32) {
        match self {
            Instruction::Loadl(a) | Instruction::Storel(a, _) | Instruction::Commit(a) | Instruction::Reconcile(a) => (a, a),
            Instruction::Fence(_, first, second) => (first, second),
        }
    }
}

#[derive(Clone, Copy, Debug, PartialEq, Eq)]
pub enum Step {
    Issue { site: u32, tag: u32, instruction: Instruction },
    Retry(u32),
    Send(u32),
    ArriveMemory(u32),
    Serve,
    SendBack,
    ArriveSite(u32),
    Take(u32),
}

impl Step {
    /// The number of its kind.
    pub fn number(self) -> u32 {
        match self {
            Step::Issue { .. } => 0,
            Step::Retry(_) => 1,
            Step::Send(_) => 2,
            Step::ArriveMemory(_) => 3,
            Step::Serve => 4,
            Step::SendBack => 5,
            Step::ArriveSite(_) => 6,
            Step::Take(_) => 7,
        }
    }

    /// Where no other message is under way: the steps that carry a site's request to memory and the reply back.
    pub fn trip(site: u32) -> [Step; 6] {
        [Step::Send(site), Step::ArriveMemory(0), Step::Serve, Step::SendBack, Step::ArriveSite(0), Step::Take(site)]
    }
}

/// The step that six numbers name, in the order of a record; none where the step's number, or an issue's instruction number, is above 7. What the step
/// does not have is not looked at.
pub fn step_named([step, site, instruction, tag, first, second]: [u32; 6]) -> Option<Step> {
    Some(match step {
        0 => {
            let instruction = match instruction {
                0 => Instruction::Loadl(first),
                1 => Instruction::Storel(first, second),
                2 => Instruction::Commit(first),
                3 => Instruction::Reconcile(first),
                4..=7 => Instruction::Fence(instruction, first, second),
                _ => return None,
            };
            Step::Issue { site, tag, instruction }
        }
        1 => Step::Retry(site),
        2 => Step::Send(site),
        3 => Step::ArriveMemory(site),
        4 => Step::Serve,
        5 => Step::SendBack,
        6 => Step::ArriveSite(site),
        7 => Step::Take(site),
        _ => return None,
    })
}

/// The bytes of document 01's sample run.
pub const SAMPLE: [u8; 21] = [2, 2, 4, 1, 1, 1, 0, 0, 0, 7, 3, 2, 0, 3, 0, 4, 5, 6, 0, 7, 0];

pub fn in_limits(sizes: [u32; 6]) -> bool {
    sizes.iter().zip(LIMITS).all(|(size, (least, most))| (least..=most).contains(size))
}

/// Reads forward through a record.
struct Cursor<'a> {
    bytes: &'a [u8],
    at: usize,
}

impl Cursor<'_> {
    /// A byte holds seven bits of a number, the lowest ones in front, and its top bit says that one more follows. No needless byte; at most 4,294,967,295.
    /// A fault is at the number's first byte, and moves nothing.
    fn number(&mut self) -> Result<u32, Refusal> {
        let fault = Refusal::NoRecord(self.at);
        let mut value: u64 = 0;
        for (count, byte) in self.bytes.iter().skip(self.at).enumerate() {
            value |= u64::from(byte & 0x7F) << (7 * count);
            if value > u64::from(u32::MAX) || count == 5 {
                return Err(fault);
            }
            if byte & 0x80 == 0 {
                if *byte == 0 && count > 0 {
                    return Err(fault);
                }
                self.at += count + 1;
                return Ok(value as u32);
            }
        }
        Err(fault)
    }

    /// A step's or an instruction's number: above 7 it is a fault at its first byte.
    fn kind(&mut self) -> Result<u32, Refusal> {
        let start = self.at;
        match self.number()? {
            kind @ 0..=7 => Ok(kind),
            _ => Err(Refusal::NoRecord(start)),
        }
    }
}

/// 13, then 10, then 12: a fault in the sixth size comes before a limit of the first.
pub fn read_sizes(bytes: &[u8]) -> Result<([u32; 6], usize), Refusal> {
    if bytes.len() > MOST_BYTES {
        return Err(Refusal::RecordLong);
    }
    let mut cursor = Cursor { bytes, at: 0 };
    let mut sizes = [0; 6];
    for size in &mut sizes {
        *size = cursor.number()?;
    }
    if in_limits(sizes) {
        Ok((sizes, cursor.at))
    } else {
        Err(Refusal::SizeOutside)
    }
}

/// The step at an offset and the offset past it; `None` is the end, where the offset is the length. 13, then 10.
pub fn read_step(bytes: &[u8], at: usize) -> Result<Option<(Step, usize)>, Refusal> {
    if bytes.len() > MOST_BYTES {
        return Err(Refusal::RecordLong);
    }
    if at == bytes.len() {
        return Ok(None);
    }
    let mut cursor = Cursor { bytes, at };
    let step = match cursor.kind()? {
        0 => read_issue(&mut cursor)?,
        1 => Step::Retry(cursor.number()?),
        2 => Step::Send(cursor.number()?),
        3 => Step::ArriveMemory(cursor.number()?),
        4 => Step::Serve,
        5 => Step::SendBack,
        6 => Step::ArriveSite(cursor.number()?),
        _ => Step::Take(cursor.number()?),
    };
    Ok(Some((step, cursor.at)))
}

/// The fields of an issue, in their order (Record 3a).
fn read_issue(cursor: &mut Cursor) -> Result<Step, Refusal> {
    let site = cursor.number()?;
    let kind = cursor.kind()?;
    let tag = cursor.number()?;
    let address = cursor.number()?;
    let instruction = match kind {
        0 => Instruction::Loadl(address),
        1 => Instruction::Storel(address, cursor.number()?),
        2 => Instruction::Commit(address),
        3 => Instruction::Reconcile(address),
        fence => Instruction::Fence(fence, address, cursor.number()?),
    };
    Ok(Step::Issue { site, tag, instruction })
}

/// Appends a number in its shortest form.
pub fn write_number(out: &mut impl Extend<u8>, mut n: u32) {
    while n >= 0x80 {
        out.extend([n as u8 | 0x80]);
        n >>= 7;
    }
    out.extend([n as u8]);
}

/// Appends a step: its number, then its fields.
pub fn write_step(out: &mut impl Extend<u8>, step: Step) {
    write_number(out, step.number());
    let fields: &[u32] = match step {
        Step::Issue { site, tag, instruction } => match instruction {
            Instruction::Loadl(a) | Instruction::Commit(a) | Instruction::Reconcile(a) => &[site, instruction.number(), tag, a],
            Instruction::Storel(a, b) | Instruction::Fence(_, a, b) => &[site, instruction.number(), tag, a, b],
        },
        Step::Serve | Step::SendBack => &[],
        Step::Retry(n) | Step::Send(n) | Step::ArriveMemory(n) | Step::ArriveSite(n) | Step::Take(n) => &[n],
    };
    for n in fields {
        write_number(out, *n);
    }
}

/// A whole record: sizes, and then nothing but steps (Record 2).
pub fn record(sizes: [u32; 6], steps: &[Step]) -> Vec<u8> {
    let mut out = Vec::new();
    for size in sizes {
        write_number(&mut out, size);
    }
    for step in steps {
        write_step(&mut out, *step);
    }
    out
}

/// A whole record at the buffer's start, all of it or nothing: its sizes, and rows of six numbers that name a step each. Gives its length. 12; then 10
/// with the number from 0 of the first row that names none, a cut last row too; then 13; then 11.
pub fn write_record(buf: &mut [u8], sizes: [u32; 6], numbers: &[u32]) -> Result<usize, Refusal> {
    if !in_limits(sizes) {
        return Err(Refusal::SizeOutside);
    }
    let named = |(row, numbers): (usize, &[u32])| {
        let six = <[u32; 6]>::try_from(numbers).ok();
        six.and_then(step_named).ok_or(Refusal::NoRecord(row))
    };
    let steps = numbers.chunks(6).enumerate().map(named).collect::<Result<Vec<Step>, Refusal>>()?;
    let bytes = record(sizes, &steps);
    if bytes.len() > MOST_BYTES {
        return Err(Refusal::RecordLong);
    }
    buf.get_mut(..bytes.len()).ok_or(Refusal::BufferShort)?.copy_from_slice(&bytes);
    Ok(bytes.len())
}
