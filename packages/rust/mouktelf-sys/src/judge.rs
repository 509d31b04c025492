//! The judge of recorded connections.

#[repr(C)]
#[derive(Clone, Copy, Default, Debug)]
pub struct JudgeLimits {
    pub idle: u64,
    pub columns: u16,
    pub encryption: u8,
    pub ranks: u8,
}

#[repr(C)]
#[derive(Clone, Copy, Default, Debug)]
pub struct JudgePiece {
    pub time: u64,
    pub length: usize,
    pub what: u8,
}

#[repr(C)]
#[derive(Clone, Copy, Default, Debug)]
pub struct JudgeFinding {
    pub offset: u64,
    pub time: u64,
    pub value: u64,
    pub number: u8,
    pub level: u8,
    pub direction: u8,
}

extern "C" {
    #[allow(clippy::too_many_arguments)]
    pub fn tds_judge(limits: &JudgeLimits, pieces: *const JudgePiece, piece_count: usize, bytes: *const u8, length: usize, findings: *mut JudgeFinding, room: usize, count: &mut usize) -> u8;
}
