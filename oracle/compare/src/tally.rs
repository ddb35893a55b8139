//! What was asked and answered, in numbers.

use std::fmt;

#[derive(Clone, Copy, Debug, Eq, PartialEq)]
#[allow(dead_code)] // some calls are there only with their features
pub enum Call {
    Read,
    Check,
    Tidy,
    Count,
    Key,
    Line,
    Length,
    Field,
    Roots,
    Leaves,
    LeavesByTable,
    Add,
    Prune,
    Names,
    CarryOn,
    Faults,
    BinaryOut,
    BinaryIn,
    Seal,
    CheckSealed,
    Find,
    References,
}

const CALLS: [Call; 22] = [
    Call::Read,
    Call::Check,
    Call::Tidy,
    Call::Count,
    Call::Key,
    Call::Line,
    Call::Length,
    Call::Field,
    Call::Roots,
    Call::Leaves,
    Call::LeavesByTable,
    Call::Add,
    Call::Prune,
    Call::Names,
    Call::CarryOn,
    Call::Faults,
    Call::BinaryOut,
    Call::BinaryIn,
    Call::Seal,
    Call::CheckSealed,
    Call::Find,
    Call::References,
];

/// Refusals have the numbers from 1 to 33.
const NUMBERS: usize = 34;

/// How often both sides agreed. A number is a refusal's, 0 an acceptance. Field lookup gives no number: where the stand-in takes
/// the value's place, it is counted under the number that key would give.
pub struct Tally {
    texts: [u64; NUMBERS],
    calls: [[u64; NUMBERS]; CALLS.len()],
    refused: [u64; CALLS.len()],
    grown: u64,
    areas: u64,
    faults: [u64; NUMBERS],
    told: u64,
}

impl Default for Tally {
    fn default() -> Self {
        Self {
            texts: [0; NUMBERS],
            calls: [[0; NUMBERS]; CALLS.len()],
            refused: [0; CALLS.len()],
            grown: 0,
            areas: 0,
            faults: [0; NUMBERS],
            told: 0,
        }
    }
}

impl Tally {
    /// The crate and reading agree on a text.
    pub fn text(&mut self, number: u32) {
        self.texts[number as usize] += 1;
    }

    /// A call over an accepted text answered as it must, for every length of its output.
    pub fn call(&mut self, call: Call, number: u32) {
        self.calls[call as usize][number as usize] += 1;
    }

    /// A call over a refused text gave reading's refusal, for every length of its output.
    pub fn refused(&mut self, call: Call) {
        self.refused[call as usize] += 1;
    }

    /// Reading, checking and tidying a text with a work area answered as without one.
    #[cfg(feature = "work")]
    pub fn area(&mut self) {
        self.areas += 1;
    }

    /// The faulty lines of a text are these rows.
    #[cfg(feature = "faults")]
    pub fn faults(&mut self, rows: &[u32]) {
        for row in rows.chunks(2) {
            self.faults[row[1] as usize] += 1;
        }
    }

    /// A text's faults told what reading, tidying and leaves say of it.
    #[cfg(feature = "faults")]
    pub fn told(&mut self) {
        self.told += 1;
    }

    /// An add to a header with programs did to its chains what it must.
    #[cfg(feature = "add")]
    pub fn grown(&mut self) {
        self.grown += 1;
    }
}

fn row(f: &mut fmt::Formatter<'_>, row: &[u64; NUMBERS]) -> fmt::Result {
    write!(f, "accepted {}", row[0])?;
    numbers(f, row)
}

fn numbers(f: &mut fmt::Formatter<'_>, row: &[u64; NUMBERS]) -> fmt::Result {
    for (number, n) in row.iter().enumerate().skip(1).filter(|&(_, &n)| n > 0) {
        write!(f, ", {number}: {n}")?;
    }
    writeln!(f)
}

impl fmt::Display for Tally {
    fn fmt(&self, f: &mut fmt::Formatter<'_>) -> fmt::Result {
        write!(f, "Texts on which both agree, by refusal number: ")?;
        row(f, &self.texts)?;
        writeln!(f, "Calls that answered as they must, over accepted texts and over refused ones:")?;
        for call in CALLS {
            let i = call as usize;
            if self.refused[i] + self.calls[i].iter().sum::<u64>() > 0 {
                write!(f, "  {call:?}: {} on refused texts; ", self.refused[i])?;
                row(f, &self.calls[i])?;
            }
        }
        writeln!(f, "Chains after add that are as they must be: {}", self.grown)?;
        writeln!(f, "Texts that are read, checked and tidied alike with a work area: {}", self.areas)?;
        writeln!(f, "Texts whose faults tell what read, tidy and leaves answer: {}", self.told)?;
        write!(f, "Faulty lines by number: {} in all", self.faults.iter().sum::<u64>())?;
        numbers(f, &self.faults)
    }
}
