//! Counting comparisons by group, with the smallest failure of each group kept for the reader.

use std::fmt;

/// One group of comparisons.
#[derive(Clone, Debug)]
pub struct Group {
    pub name: String,
    pub passed: usize,
    pub failed: usize,
    /// The smallest failure so far: its size and what differed.
    worst: Option<(usize, String)>,
}

impl Group {
    pub fn new(name: impl Into<String>) -> Group {
        Group { name: name.into(), passed: 0, failed: 0, worst: None }
    }

    /// Counts one comparison; a failure is described with its size, of which the smallest is kept.
    pub fn count(&mut self, agrees: bool, size: usize, what: impl FnOnce() -> String) {
        if agrees {
            self.passed += 1;
            return;
        }
        self.failed += 1;
        if self.worst.as_ref().is_none_or(|(smallest, _)| size < *smallest) {
            self.worst = Some((size, what()));
        }
    }
}

impl fmt::Display for Group {
    fn fmt(&self, f: &mut fmt::Formatter<'_>) -> fmt::Result {
        write!(f, "{}: {} passed, {} failed", self.name, self.passed, self.failed)?;
        match &self.worst {
            None => Ok(()),
            Some((_, what)) => write!(f, "\n    {}", what.replace('\n', "\n    ")),
        }
    }
}

/// All groups of a run.
#[derive(Clone, Debug, Default)]
pub struct Report {
    pub groups: Vec<Group>,
}

impl Report {
    pub fn passed(&self) -> usize {
        self.groups.iter().map(|group| group.passed).sum()
    }

    pub fn failed(&self) -> usize {
        self.groups.iter().map(|group| group.failed).sum()
    }
}
