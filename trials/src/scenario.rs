//! Scenarios: calls in a row, some of which have each of their requests fail in turn.

use crate::record::Record;

/// A call of a scenario.
#[derive(Clone, Debug)]
pub struct Step {
    /// Made before the call is made again. They change nothing that a failure must leave.
    pub again: Vec<Record>,
    pub record: Record,
    /// Whether each request of the call fails in turn.
    pub is_swept: bool,
    /// How many of its requests it can do without.
    pub hints: u64,
    /// The call is made at this height alone.
    pub only_at: Option<u64>,
    /// The height that is to be there after the call.
    pub height: Option<u64>,
}

/// A call of which no request fails.
pub fn quiet(record: Record) -> Step {
    Step {
        again: Vec::new(),
        record,
        is_swept: false,
        hints: 0,
        only_at: None,
        height: None,
    }
}

/// A call of which each request fails in turn.
pub fn swept(record: Record) -> Step {
    Step {
        is_swept: true,
        ..quiet(record)
    }
}

impl Step {
    /// With the height that is to be there.
    pub fn leaving_height(mut self, height: u64) -> Step {
        self.height = Some(height);
        self
    }

    /// At a height alone.
    pub fn at_height(mut self, height: u64) -> Step {
        self.only_at = Some(height);
        self
    }

    pub fn with_hints(mut self, hints: u64) -> Step {
        self.hints = hints;
        self
    }

    /// With calls that are made before it is made again.
    pub fn with_again(mut self, again: Vec<Record>) -> Step {
        self.again = again;
        self
    }
}

/// Calls on a kind of subject.
#[derive(Clone, Debug)]
pub struct Scenario {
    pub name: String,
    pub kind: u64,
    pub steps: Vec<Step>,
    /// The least length at the end and the greatest.
    pub ends: Option<(usize, usize)>,
}

impl Scenario {
    pub fn new(name: &str, kind: u64, steps: Vec<Step>) -> Scenario {
        Scenario {
            name: name.to_string(),
            kind,
            steps,
            ends: None,
        }
    }

    /// With the length that is to be there at the end.
    pub fn ending(self, len: usize) -> Scenario {
        self.ending_within(len, len)
    }

    pub fn ending_within(mut self, least: usize, most: usize) -> Scenario {
        self.ends = Some((least, most));
        self
    }
}
