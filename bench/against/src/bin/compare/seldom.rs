//! How often things were met, and whether that is often enough.

pub struct Counts(Vec<(String, u64)>);

impl Counts {
    pub fn of(names: impl IntoIterator<Item = impl Into<String>>) -> Counts {
        Counts(names.into_iter().map(|name| (name.into(), 0)).collect())
    }

    pub fn add(&mut self, index: usize) {
        self.0[index].1 += 1;
    }

    pub fn of_index(&self, index: usize) -> u64 {
        self.0[index].1
    }

    pub fn total(&self) -> u64 {
        self.0.iter().map(|(_, count)| count).sum()
    }

    /// Of the one that was met least.
    pub fn least(&self) -> u64 {
        self.0.iter().map(|(_, count)| *count).min().unwrap_or(0)
    }

    /// A line for each.
    pub fn lines(&self) -> impl Iterator<Item = String> + '_ {
        self.0.iter().map(|(name, count)| format!("  {count:>9}  {name}"))
    }

    /// Each was met so often at least.
    pub fn at_least(&self, least: u64) -> Result<(), String> {
        match self.0.iter().find(|(_, count)| *count < least) {
            Some((name, count)) => Err(format!("met too seldom, {count} times and not {least}: {name}")),
            None => Ok(()),
        }
    }
}
