//! The count of answers by function and refusal number.

use std::collections::BTreeMap;
use std::fmt;

/// 0 for a given value, and the rules' refusals.
const NUMBERS: usize = 15;

#[derive(Default)]
pub struct Tally {
    functions: BTreeMap<&'static str, [usize; NUMBERS]>,
}

impl Tally {
    pub fn add(&mut self, function: &'static str, number: u32) {
        let numbers = self.functions.entry(function).or_default();
        numbers[number as usize] += 1;
    }
}

/// One line for each function: its inputs, the given values, the refusals 1 to 14.
impl fmt::Display for Tally {
    fn fmt(&self, f: &mut fmt::Formatter) -> fmt::Result {
        write!(f, "{:16}{:>7}{:>7}", "function", "inputs", "given")?;
        for number in 1..NUMBERS {
            write!(f, "{number:>6}")?;
        }
        writeln!(f)?;
        for (function, numbers) in &self.functions {
            let inputs: usize = numbers.iter().sum();
            write!(f, "{function:16}{inputs:>7}{:>7}", numbers[0])?;
            for number in &numbers[1..] {
                write!(f, "{number:>6}")?;
            }
            writeln!(f)?;
        }
        Ok(())
    }
}
