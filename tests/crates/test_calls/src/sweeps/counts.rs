use super::ends::Came;
use super::trace::{Step, Trace};
use std::alloc::AllocError;
use std::fmt::Write;

/// What came of the cases of a sweep, by their last steps.
#[derive(Clone, Copy)]
pub struct Counts {
    pub cases: u32,
    /// Cases in which the product and the tables differ.
    pub differ: u32,
    waiting: u32,
    taken: u32,
    /// By the number of the reader's fault, from 1.
    packet: [u32; 6],
    /// By the number of the end's fault, from 1.
    core: [u32; 8],
}

fn add(count: Option<&mut u32>) {
    if let Some(count) = count {
        *count = count.wrapping_add(1);
    }
}

impl Counts {
    pub fn new() -> Counts {
        Counts {
            cases: 0,
            differ: 0,
            waiting: 0,
            taken: 0,
            packet: [0; 6],
            core: [0; 8],
        }
    }

    /// Counts a case.
    pub fn add(&mut self, found: &Trace, expected: &Trace) {
        add(Some(&mut self.cases));
        if !found.is(expected) {
            add(Some(&mut self.differ));
        }
        match found.steps.last() {
            None | Some(Step::Waiting) => add(Some(&mut self.waiting)),
            Some(Step::Wrong(number)) => {
                add(self.packet.get_mut(usize::from(number.wrapping_sub(1))))
            }
            Some(Step::Came(Came::Fault(number, _))) => {
                add(self.core.get_mut(usize::from(number.wrapping_sub(1))))
            }
            Some(Step::Came(_)) => add(Some(&mut self.taken)),
        }
    }

    /// Appends the counts.
    pub fn put(&self, text: &mut String, name: &str) -> Result<(), AllocError> {
        let Counts {
            cases,
            waiting,
            taken,
            ..
        } = *self;
        write!(text, "  {name} {cases}: waiting {waiting} taken {taken}")?;
        put_numbered(text, "packet", &self.packet)?;
        put_numbered(text, "core", &self.core)?;
        writeln!(text, " differ {}", self.differ)
    }
}

/// Appends the counts that aren't 0, each behind its number.
fn put_numbered(text: &mut String, name: &str, counts: &[u32]) -> Result<(), AllocError> {
    for (index, count) in counts.iter().enumerate() {
        if *count > 0 {
            write!(text, " {name}-{} {count}", index.wrapping_add(1))?;
        }
    }
    Ok(())
}
