//! The declarations of `mouktelf.h`, over `mouktelf.c`.

mod judge;
mod service;

pub use judge::*;
pub use service::*;

#[repr(C)]
#[derive(Clone, Copy, Default, Debug)]
pub struct Packet {
    pub length: usize,
    pub kind: u8,
    pub status: u8,
}

#[repr(C)]
#[derive(Clone, Copy, Default, PartialEq, Eq, Debug)]
pub struct Client {
    pub descriptor: u64,
    pub sent: usize,
    pub packets: usize,
    pub size: u16,
    pub stage: u8,
    pub kind: u8,
    pub fault: u8,
    pub token_fault: u8,
    pub mark: u8,
    pub done: u8,
    pub columns: u8,
}

#[repr(C)]
#[derive(Clone, Copy, Default, Debug)]
pub struct Cursor {
    pub at: usize,
    pub columns: u8,
}

#[repr(C)]
#[derive(Clone, Copy, Default, Debug)]
pub struct Token {
    pub value: u64,
    pub start: usize,
    pub number: i32,
    pub line: i32,
    pub status: u16,
    pub cur_cmd: u16,
    pub kind: u8,
    pub state: u8,
    pub severity: u8,
    pub change: u8,
}

#[repr(C)]
#[derive(Clone, Copy, Default, Debug)]
pub struct Rows {
    pub start: usize,
    pub count: usize,
    pub columns: usize,
}

#[repr(C)]
#[derive(Clone, Copy, Default, Debug)]
pub struct WireColumn {
    pub form: u8,
    pub bytes: u8,
}

#[repr(C)]
#[derive(Clone, Copy, Debug)]
pub struct WireMemory {
    pub columns: [WireColumn; 4096],
    pub nulls: [u8; 512],
    pub count: u16,
}

impl Default for WireMemory {
    fn default() -> WireMemory {
        WireMemory { columns: [WireColumn::default(); 4096], nulls: [0; 512], count: 0 }
    }
}

#[repr(C)]
#[derive(Clone, Copy, Default, Debug)]
pub struct WireDue {
    pub left: u64,
    pub value: u32,
    pub change: u16,
    pub due: u8,
    pub bytes: u8,
    pub field: u8,
    pub next: u8,
    pub fault: u8,
}

#[repr(C)]
#[derive(Clone, Copy, Default, Debug)]
pub struct WireInside {
    pub column: u16,
    pub inside: u8,
    pub base: WireColumn,
}

#[repr(C)]
#[derive(Clone, Copy, Default, Debug)]
pub struct WireRefusal {
    pub at: u64,
    pub fault: u8,
    pub byte: u8,
}

#[repr(C)]
#[derive(Clone, Copy, Default, Debug)]
pub struct Wire {
    pub due: WireDue,
    pub refused: WireRefusal,
    pub start: u64,
    pub passed: u64,
    pub most: u16,
    pub entries: u16,
    pub inside: WireInside,
    pub shape: WireColumn,
    pub kind: u8,
    pub parts: u8,
    pub ciphered: u8,
    pub encryption: u8,
    pub ranks: u8,
    pub head: [u8; 24],
    pub head_count: u8,
}

#[repr(C)]
#[derive(Clone, Copy, Default, Debug)]
pub struct WirePlace {
    pub start: u64,
    pub length: u64,
}

#[repr(C)]
#[derive(Clone, Copy, Default, Debug)]
pub struct Column {
    pub name: WirePlace,
    pub size: u32,
    pub user_type: u32,
    pub flags: u16,
    pub kind: u8,
    pub precision: u8,
    pub scale: u8,
    pub collation: [u8; 5],
    pub shape: WireColumn,
}

#[repr(C)]
#[derive(Clone, Copy, Default, PartialEq, Eq, Debug)]
pub struct RowPlace {
    pub start: u64,
    pub length: u64,
    pub null: u8,
}

#[repr(C)]
#[derive(Clone, Copy, Default, PartialEq, Eq, Debug)]
pub struct Parts {
    pub left: u32,
    pub stage: u8,
    pub seen: u8,
    pub first: u8,
    pub second: u8,
    pub third: u8,
}

#[repr(C)]
#[derive(Clone, Copy, Default, Debug)]
pub struct WireToken {
    pub start: u64,
    pub length: u64,
    pub value: u64,
    pub old_value: u64,
    pub text: WirePlace,
    pub others: WirePlace,
    pub number: i32,
    pub size: u32,
    pub status: u16,
    pub command: u16,
    pub kind: u8,
    pub told: u8,
    pub change: u8,
    pub state: u8,
    pub severity: u8,
    pub recoverable: u8,
}

extern "C" {
    pub fn mouktelf_version() -> u32;
    pub fn tds_packets_read(bytes: *const u8, length: usize, size: u16, direction: u8, packets: *mut Packet, room: usize, count: &mut usize) -> u8;
    pub fn tds_client_new(size: u16, client: &mut Client) -> u8;
    pub fn tds_client_mark_reset(client: &mut Client, reset: u8) -> u8;
    pub fn tds_client_start_batch(client: &mut Client, text: *const u16, units: usize, message: *mut u8, room: usize, count: &mut usize) -> u8;
    pub fn tds_client_start_begin(client: &mut Client, isolation: u8, message: *mut u8, room: usize, count: &mut usize) -> u8;
    pub fn tds_client_start_commit(client: &mut Client, next: u8, message: *mut u8, room: usize, count: &mut usize) -> u8;
    pub fn tds_client_start_rollback(client: &mut Client, next: u8, message: *mut u8, room: usize, count: &mut usize) -> u8;
    pub fn tds_client_send(client: &mut Client, message: *const u8, length: usize, out: *mut u8, room: usize, count: &mut usize) -> u8;
    pub fn tds_client_cancel(client: &mut Client, out: *mut u8, room: usize, count: &mut usize) -> u8;
    pub fn tds_client_take(client: &mut Client, packet: *const u8, length: usize) -> u8;
    pub fn tds_client_start_message(client: &mut Client, kind: u8, kept: *mut u8, room: usize, count: &mut usize) -> u8;
    #[allow(clippy::too_many_arguments)]
    pub fn tds_client_put(client: &mut Client, kept: *mut u8, kept_room: usize, waiting: &mut usize, bytes: *const u8, length: usize, taken: &mut usize, out: *mut u8, room: usize, count: &mut usize) -> u8;
    pub fn tds_client_finish(client: &mut Client, kept: *const u8, waiting: usize, out: *mut u8, room: usize, count: &mut usize) -> u8;
    pub fn tds_client_heard_change(client: &mut Client, change: u8, descriptor: u64) -> u8;
    pub fn tds_client_heard_done(client: &mut Client, kind: u8, status: u16) -> u8;
    pub fn tds_client_heard_other(client: &mut Client) -> u8;
    pub fn tds_client_message_ended(client: &mut Client) -> u8;
    pub fn tds_client_lost(client: &mut Client) -> u8;
    pub fn tds_tokens_next(data: *const u8, length: usize, cursor: &mut Cursor, tokens: *mut Token, room: usize, count: &mut usize) -> u8;
    pub fn tds_rows_next(data: *const u8, length: usize, cursor: &mut Cursor, rows: &mut Rows) -> u8;
    pub fn tds_wire_new(most: u16, encryption: u8, ranks: u8, walk: &mut Wire, memory: &mut WireMemory) -> u8;
    pub fn tds_wire_next(walk: &mut Wire, memory: &mut WireMemory, bytes: *const u8, length: usize, count: &mut usize, token: &mut WireToken) -> u8;
    pub fn tds_wire_is_between(walk: &Wire, memory: &WireMemory) -> u8;
    pub fn tds_wire_restart(walk: &mut Wire, memory: &mut WireMemory) -> u8;
    pub fn tds_columns(bytes: *const u8, length: usize, encryption: u8, columns: *mut Column, room: usize, count: &mut usize, taken: &mut usize) -> u8;
    pub fn tds_row_places(columns: *const Column, count: usize, bytes: *const u8, length: usize, places: *mut RowPlace, room: usize, taken: &mut usize) -> u8;
    #[allow(clippy::too_many_arguments)]
    pub fn tds_places_of_rows(columns: *const Column, count: usize, bytes: *const u8, length: usize, places: *mut RowPlace, room: usize, rows: &mut usize, taken: &mut usize) -> u8;
    #[allow(clippy::too_many_arguments)]
    pub fn tds_row_values(columns: *const Column, count: usize, first: usize, nulls: *const u8, bits: usize, bytes: *const u8, length: usize, places: *mut RowPlace, room: usize, next: &mut usize, taken: &mut usize) -> u8;
    pub fn tds_parts_next(parts: &mut Parts, bytes: *const u8, length: usize, start: &mut usize, count: &mut usize, taken: &mut usize) -> u8;
    #[allow(clippy::too_many_arguments)]
    pub fn tds_client_hear(client: &mut Client, walk: &mut Wire, memory: &mut WireMemory, bytes: *const u8, length: usize, ends: u8, taken: &mut usize, tokens: *mut WireToken, room: usize, count: &mut usize) -> u8;
    #[cfg(feature = "play")]
    pub fn tds_play(schedule: *const u8, length: usize, out: *mut u8, room: usize, count: &mut usize) -> u8;
}
