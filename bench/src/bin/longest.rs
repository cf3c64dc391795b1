//! Writes the record of the state with the longest drain.

use bench::longest::{steps, SIZES};
use bench::record::record;
use std::io::{self, Write};

fn main() -> io::Result<()> {
    io::stdout().write_all(&record(SIZES, &steps()))
}
