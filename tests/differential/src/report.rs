//! What is told about a difference.

use crate::call::Call;
use crate::model::Store;
use crate::pair::Difference;
use reference::followed::Left;
use reference::state::WORDS;

/// A cut, and the record that it left where a record store was pending.
#[derive(Clone, PartialEq, Eq, Debug)]
pub enum Cut {
    In(Store, Left),
    After(Left),
}

/// A call of a list.
pub struct Step {
    call: Call,
    bytes: usize,
    /// The damaged state it was made with.
    pub state: Option<[u64; WORDS]>,
    /// Cuts in its store, or after it and before the next call.
    pub cuts: Vec<Cut>,
    /// The answer's number, once both sides agree.
    pub number: Option<u64>,
    /// Of two runs it stands in one alone.
    pub in_one_run: bool,
}

impl Step {
    pub fn new(call: Call, bytes: usize) -> Step {
        Step {
            call,
            bytes,
            state: None,
            cuts: Vec::new(),
            number: None,
            in_one_run: false,
        }
    }
}

/// Prints a difference and the calls that led to it.
pub fn print(seed: u64, list: u64, log: &[Step], difference: &Difference) {
    println!("DIFFERENCE, seed {seed}, list {list}");
    for (i, step) in log.iter().enumerate() {
        print!("  {i}: {:?}, {} bytes lent", step.call, step.bytes);
        if step.in_one_run {
            print!(", in one run alone");
        }
        if let Some(number) = step.number {
            print!(", answered {number}");
        }
        if let Some(state) = step.state {
            print!(", with state {state:?}");
        }
        if !step.cuts.is_empty() {
            print!(", cut: {:?}", step.cuts);
        }
        println!();
    }
    println!("differs: {}", difference.what);
    let [first, second] = difference.sides;
    println!("{:11}{}", format!("{first}:"), difference.library);
    println!("{:11}{}", format!("{second}:"), difference.reference);
}
