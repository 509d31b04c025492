//! The table of connections.

use crate::{Client, Wire, WireMemory, WireToken};

#[repr(C)]
#[derive(Clone, Copy, Default, Debug)]
pub struct Seat {
    pub client: Client,
    pub number: u64,
    pub holder: u64,
    pub asked: u64,
    pub place: u8,
}

#[repr(C)]
#[derive(Clone, Copy, Default, Debug)]
pub struct Service {
    pub last: u64,
    pub given: u64,
    pub count: usize,
    pub size: u16,
}

#[repr(C)]
#[derive(Clone, Copy, Default, Debug)]
pub struct Lent {
    pub lease: u64,
    pub number: u64,
    pub had: u8,
}

#[repr(C)]
#[derive(Clone, Copy, Default, Debug)]
pub struct Asked {
    pub number: u64,
    pub request: u64,
}

#[repr(C)]
#[derive(Clone, Copy, Default, Debug)]
pub struct Whose {
    pub lease: u64,
    pub request: u64,
}

extern "C" {
    pub fn tds_service_lease(service: &mut Service, seats: *mut Seat, most: usize, lent: &mut Lent) -> u8;
    pub fn tds_service_find(service: &Service, seats: *const Seat, most: usize, lease: u64, index: &mut usize) -> u8;
    pub fn tds_service_at(service: &Service, seats: *const Seat, most: usize, number: u64, index: &mut usize) -> u8;
    #[allow(clippy::too_many_arguments)]
    pub fn tds_service_ask(service: &Service, seats: *mut Seat, most: usize, lease: u64, kind: u8, kept: *mut u8, room: usize, count: &mut usize, asked: &mut Asked) -> u8;
    #[allow(clippy::too_many_arguments)]
    pub fn tds_service_put(service: &Service, seats: *mut Seat, most: usize, lease: u64, kept: *mut u8, kept_room: usize, waiting: &mut usize, bytes: *const u8, length: usize, taken: &mut usize, out: *mut u8, room: usize, count: &mut usize) -> u8;
    #[allow(clippy::too_many_arguments)]
    pub fn tds_service_finish(service: &Service, seats: *mut Seat, most: usize, lease: u64, kept: *const u8, waiting: usize, out: *mut u8, room: usize, count: &mut usize) -> u8;
    pub fn tds_service_cancel(service: &Service, seats: *mut Seat, most: usize, lease: u64, out: *mut u8, room: usize, count: &mut usize) -> u8;
    pub fn tds_service_came(service: &Service, seats: *mut Seat, most: usize, number: u64, token: &WireToken, whose: &mut Whose) -> u8;
    #[allow(clippy::too_many_arguments)]
    pub fn tds_service_hear(service: &Service, seats: *mut Seat, most: usize, number: u64, walk: &mut Wire, memory: &mut WireMemory, bytes: *const u8, length: usize, ends: u8, taken: &mut usize, tokens: *mut WireToken, room: usize, count: &mut usize, whose: &mut Whose) -> u8;
    pub fn tds_service_message_ended(service: &Service, seats: *mut Seat, most: usize, number: u64, cut: u8, whose: &mut Whose) -> u8;
    #[allow(clippy::too_many_arguments)]
    pub fn tds_service_give_back(service: &mut Service, seats: *mut Seat, most: usize, lease: u64, out: *mut u8, room: usize, count: &mut usize, number: &mut u64) -> u8;
    pub fn tds_service_drained(service: &mut Service, seats: *mut Seat, most: usize, number: u64) -> u8;
    pub fn tds_service_lost(service: &mut Service, seats: *mut Seat, most: usize, number: u64) -> u8;
    pub fn tds_service_keep(service: &mut Service, seats: *mut Seat, most: usize, lease: u64, ticket: &mut u64) -> u8;
    pub fn tds_service_resume(service: &mut Service, seats: *mut Seat, most: usize, ticket: u64, lent: &mut Lent) -> u8;
    pub fn tds_service_abandon(service: &mut Service, seats: *mut Seat, most: usize, ticket: u64, number: &mut u64) -> u8;
    pub fn tds_service_clean(service: &mut Service, seats: *mut Seat, most: usize, number: u64, lent: &mut Lent) -> u8;
    pub fn tds_service_cleaned(service: &mut Service, seats: *mut Seat, most: usize, lease: u64, number: &mut u64) -> u8;
}
