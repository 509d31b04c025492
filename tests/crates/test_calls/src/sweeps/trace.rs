use super::ends::Came;
use std::alloc::Global;

/// What came of the next bytes.
#[derive(Clone, Copy, PartialEq, Eq)]
pub enum Step {
    /// A header has the fault of this number.
    Wrong(u8),
    /// A packet came whole, and was handed to the end.
    Came(Came),
    /// The bytes end inside a packet.
    Waiting,
}

/// What came of bytes, packet by packet; the bytes of the tokens that were told or of the replies;
/// and the descriptor behind all.
#[derive(Drop)]
pub struct Trace {
    pub steps: Vec<Step>,
    pub bytes: Vec<u8>,
    pub descriptor: u64,
}

impl Trace {
    pub fn new(alloc: Global) -> Trace {
        Trace {
            steps: Vec::new(alloc),
            bytes: Vec::new(alloc),
            descriptor: 0,
        }
    }

    pub fn has_fault(&self) -> bool {
        matches!(
            self.steps.last(),
            Some(Step::Wrong(_)) | Some(Step::Came(Came::Fault(_, _)))
        )
    }

    /// Whether both are the same. The descriptor of an end that refused isn't looked at.
    pub fn is(&self, other: &Trace) -> bool {
        self.steps.as_slice() == other.steps.as_slice()
            && self.bytes.as_slice() == other.bytes.as_slice()
            && (self.has_fault() || self.descriptor == other.descriptor)
    }
}
