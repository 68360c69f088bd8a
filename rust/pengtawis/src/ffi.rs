//! What `c/ds.h` declares. Each layout is compared with the header's by layout.rs.

use std::ffi::c_void;

/// `struct ds_handle`, `struct ds_map`, `struct ds_table`, `struct ds_desk` and `struct ds_seat`: null is closed.
pub type Handle = *mut c_void;

/// `struct ds_request`.
#[repr(C)]
#[derive(Clone, Copy)]
pub struct Request {
    pub incarnation: u64,
    pub position: u64,
    pub text_at: u64,
    pub text_length: u64,
    pub command: u32,
    pub generation: u32,
    pub epoch: u32,
    pub seq: u32,
    pub value: u32,
    pub sub: u32,
    pub max: u32,
    pub slot: u16,
    pub value_slot: u16,
    pub kinds: u8,
    pub overwrite: u8,
    pub initial: u8,
    pub under: u8,
    pub behind: u8,
    pub name_length: u8,
    pub name: [u8; 64],
}

/// `struct ds_answer`.
#[repr(C)]
#[derive(Clone, Copy, Default)]
pub struct Answer {
    pub count: u64,
    pub taken: u64,
    pub stale: u64,
    pub before: u64,
    pub after: u64,
    pub pieces: u64,
    pub word: u32,
    pub refusal: u32,
    pub epoch: u32,
    pub seq: u32,
    pub value: u32,
    pub value_slot: u16,
    pub kind: u8,
    pub last: u8,
    pub owed: [u8; 16],
}

/// `struct ds_given`.
#[repr(C)]
#[derive(Clone, Copy, Default)]
pub struct Given {
    pub count: u64,
    pub length: u64,
    pub stop: u32,
}

/// `struct ds_map_key`.
#[repr(C)]
#[derive(Clone, Copy, Debug)]
pub struct MapKey {
    pub kind: u8,
    pub name_length: u8,
    pub name: [u8; 64],
}

impl MapKey {
    /// Comes before every key.
    pub const FIRST: MapKey = MapKey { kind: 0, name_length: 0, name: [0; 64] };
}

/// `struct ds_move`.
#[repr(C)]
#[derive(Clone, Copy, Default)]
pub struct Move {
    pub id: u64,
    pub kind: u32,
    pub generation: u32,
    pub slot: u16,
    pub unit: u8,
}

/// `struct ds_settings_fault`.
#[repr(C)]
#[derive(Clone, Copy, Default)]
pub struct SettingsFault {
    pub line: u64,
    pub cause: u32,
    pub service: u32,
}

/// `struct ds_rs_event`.
#[repr(C)]
#[derive(Clone, Copy)]
pub struct Event {
    pub tick: u64,
    pub kind: u32,
    pub cause: u32,
    pub generation: u32,
    pub slot: u16,
    pub label_length: u8,
    pub label: [u8; 64],
}

/// `struct ds_rs_action`.
#[repr(C)]
#[derive(Clone, Copy)]
pub struct Action {
    pub kind: u32,
    pub generation: u32,
    pub word: u32,
    pub refusal: u32,
    pub slot: u16,
    pub gone: u8,
    pub label_length: u8,
    pub label: [u8; 64],
}

/// `struct ds_rs_service`.
#[repr(C)]
#[derive(Clone, Copy)]
pub struct Service {
    pub until: u64,
    pub state: u32,
    pub generation: u32,
    pub failures: u32,
    pub period: u32,
    pub limit: u32,
    pub slot: u16,
    pub service_class: u8,
    pub has_unit: u8,
    pub unit: u8,
    pub label_length: u8,
    pub label: [u8; 64],
}

/// `enum ds_command`.
pub mod command {
    pub const PUBLISH: u32 = 0;
    pub const DELETE: u32 = 1;
    pub const SWEEP: u32 = 2;
    pub const RETRIEVE: u32 = 3;
    pub const NAMEOF: u32 = 4;
    pub const SUBSCRIBE: u32 = 5;
    pub const CHECK: u32 = 6;
    pub const SINCE: u32 = 7;
    pub const SNAPSHOT: u32 = 8;
    pub const PAGE: u32 = 9;
    pub const MERGE: u32 = 10;
}

/// `enum ds_word`: those words by which this crate tells answers apart.
pub mod word {
    pub const CHANGED: u32 = 0;
    pub const JOURNALED: u32 = 7;
    pub const SNAPPED: u32 = 8;
    pub const PAGED: u32 = 9;
    pub const STOPPED: u32 = 11;
    pub const REFUSED: u32 = 12;
    pub const NOREQUEST: u32 = 13;
    pub const BADLINE: u32 = 15;
}

/// `enum ds_rs_event_kind`.
pub mod event {
    pub const UP: u32 = 0;
    pub const DOWN: u32 = 1;
    pub const REFRESH: u32 = 2;
    pub const RESTART: u32 = 3;
    pub const DEATH: u32 = 4;
    pub const BEAT: u32 = 5;
    pub const TICK: u32 = 6;
}

/// `enum ds_rs_action_kind`, but for the last one, DS_RS_GIVEUP.
pub mod action {
    pub const KILL: u32 = 0;
    pub const START: u32 = 1;
    pub const PING: u32 = 2;
    pub const OFFER: u32 = 3;
    pub const SWEEP: u32 = 4;
}

/// `enum ds_rs_state`, but for the last one, DS_RS_ISGIVENUP.
pub mod state {
    pub const DOWN: u32 = 0;
    pub const UP: u32 = 1;
    pub const WAITING: u32 = 2;
}

/// `enum ds_stop`.
pub mod stop {
    pub const WHOLE: u32 = 0;
    pub const TOOSMALL: u32 = 1;
}

/// `DS_MAX_PIECE`.
pub const MAX_PIECE: usize = 2204;

extern "C" {
    pub fn ds_open(handle: *mut Handle, incarnation: u64, first: u64, ring: u32) -> u32;
    pub fn ds_call(handle: *mut Handle, request: *const Request, texts: *const u8, length: usize, answer: *mut Answer) -> u32;
    pub fn ds_items(handle: *mut Handle, first: usize, room: *mut u8, length: usize, given: *mut Given) -> u32;
    pub fn ds_call_line(handle: *mut Handle, line: *const u8, length: usize, answer: *mut Answer) -> u32;
    pub fn ds_text(handle: *mut Handle, first: usize, room: *mut u8, length: usize, given: *mut Given) -> u32;
    pub fn ds_close(handle: *mut Handle) -> u32;
    pub fn ds_rs_open(handle: *mut Handle, settings: *const u8, length: usize, next: u32, slot: u16, fault: *mut SettingsFault) -> u32;
    pub fn ds_rs_renew(handle: *mut Handle, settings: *const u8, length: usize, fault: *mut SettingsFault) -> u32;
    pub fn ds_rs_event(handle: *mut Handle, event: *const Event, answer: *mut Answer) -> u32;
    pub fn ds_rs_action(handle: *mut Handle, index: usize, action: *mut Action) -> u32;
    pub fn ds_rs_service(handle: *mut Handle, index: usize, service: *mut Service) -> u32;
    pub fn ds_rs_due(handle: *mut Handle, tick: *mut u64) -> u32;
    pub fn ds_rs_next(handle: *mut Handle, generation: *mut u32) -> u32;
    pub fn ds_rs_may_publish(handle: *mut Handle, generation: u32, slot: u16, kind: u8, name: *const u8, length: usize) -> u32;
    pub fn ds_rs_may_complain(handle: *mut Handle, generation: u32, slot: u16, label: *const u8, length: usize) -> u32;
    pub fn ds_rs_may_connect(handle: *mut Handle, generation: u32, slot: u16, label: *const u8, length: usize) -> u32;
    pub fn ds_map_new(map: *mut Handle, kinds: u8, pattern: *const u8, length: usize) -> u32;
    pub fn ds_map_take(map: *mut Handle, lines: *const u8, length: usize, answer: *mut Answer) -> u32;
    pub fn ds_map_label(map: *mut Handle, name: *const u8, length: usize, answer: *mut Answer) -> u32;
    pub fn ds_map_value(
        map: *mut Handle, kind: u8, name: *const u8, length: usize, answer: *mut Answer, room: *mut u8, room_length: usize, given: *mut Given,
    ) -> u32;
    pub fn ds_map_next(map: *mut Handle, key: *mut MapKey) -> u32;
    pub fn ds_map_close(map: *mut Handle) -> u32;
    pub fn ds_table_new(table: *mut Handle, server: u32) -> u32;
    pub fn ds_table_assign(table: *mut Handle, unit: u8, class: u8, label: *const u8, length: usize, answer: *mut Answer) -> u32;
    pub fn ds_table_follow(table: *mut Handle, map: *mut Handle, answer: *mut Answer) -> u32;
    pub fn ds_table_submit(table: *mut Handle, map: *mut Handle, id: u64, unit: u8, answer: *mut Answer) -> u32;
    pub fn ds_table_reply(table: *mut Handle, generation: u32, slot: u16, id: u64, answer: *mut Answer) -> u32;
    pub fn ds_table_moves(table: *mut Handle, first: usize, moves: *mut Move, count: usize, given: *mut usize) -> u32;
    pub fn ds_table_close(table: *mut Handle) -> u32;
    pub fn ds_desk_open(desk: *mut Handle, incarnation: u64, first: u64, ring: u32, seats: u32) -> u32;
    pub fn ds_seat_open(desk: *mut Handle, seat: *mut Handle) -> u32;
    pub fn ds_seat_call(
        seat: *mut Handle, request: *const Request, texts: *const u8, length: usize, answer: *mut Answer, place: *mut u64,
    ) -> u32;
    pub fn ds_seat_wait(
        seat: *mut Handle, request: *const Request, texts: *const u8, length: usize, answer: *mut Answer, place: *mut u64,
    ) -> u32;
    pub fn ds_seat_items(seat: *mut Handle, first: usize, room: *mut u8, length: usize, given: *mut Given) -> u32;
    pub fn ds_seat_take(seat: *mut Handle, server: u32, bits: *mut u8, floor: *mut u64) -> u32;
    pub fn ds_seat_close(seat: *mut Handle) -> u32;
    pub fn ds_desk_close(desk: *mut Handle) -> u32;
    pub fn ds_version() -> *const std::os::raw::c_char;
}

impl Request {
    /// Returns a request with this command, whose other parts are zero.
    pub const fn new(command: u32) -> Request {
        Request {
            incarnation: 0, position: 0, text_at: 0, text_length: 0, command, generation: 0, epoch: 0, seq: 0, value: 0, sub: 0,
            max: 0, slot: 0, value_slot: 0, kinds: 0, overwrite: 0, initial: 0, under: 0, behind: 0, name_length: 0, name: [0; 64],
        }
    }
}

impl Event {
    /// Returns an event of this kind, whose other parts are zero.
    pub const fn new(kind: u32, tick: u64) -> Event {
        Event { tick, kind, cause: 0, generation: 0, slot: 0, label_length: 0, label: [0; 64] }
    }
}

impl Action {
    pub const NONE: Action =
        Action { kind: 0, generation: 0, word: 0, refusal: 0, slot: 0, gone: 0, label_length: 0, label: [0; 64] };
}

impl Service {
    pub const NONE: Service = Service {
        until: 0, state: 0, generation: 0, failures: 0, period: 0, limit: 0, slot: 0, service_class: 0, has_unit: 0, unit: 0,
        label_length: 0, label: [0; 64],
    };
}

#[cfg(test)]
mod tests {
    use super::*;

    /// A call on a closed handle is refused, and so is opening an open one. The types of this crate make no such call.
    #[test]
    fn closed_and_open() {
        let (mut store, mut map, mut answer) = (std::ptr::null_mut(), std::ptr::null_mut(), Answer::default());
        // SAFETY: the handles begin as null, lengths are those of the texts, and pointers those of values that outlive the calls.
        unsafe {
            assert_eq!(ds_call(&mut store, &Request::new(command::CHECK), std::ptr::null(), 0, &mut answer), 23);
            assert_eq!(ds_map_take(&mut map, std::ptr::null(), 0, &mut answer), 23);
            assert_eq!(ds_rs_event(&mut store, &Event::new(event::TICK, 0), &mut answer), 23);
            assert_eq!((ds_open(&mut store, 1, 0, 1), ds_open(&mut store, 1, 0, 1)), (0, 24));
            let mut fault = SettingsFault::default();
            assert_eq!(ds_rs_renew(&mut store, std::ptr::null(), 0, &mut fault), 14);
            assert_eq!(ds_rs_open(&mut store, b"slots = 1".as_ptr(), 9, 1, 16, &mut fault), 0);
            assert_eq!(ds_rs_open(&mut store, b"slots = 1".as_ptr(), 9, 1, 16, &mut fault), 13);
            assert_eq!((ds_map_new(&mut map, 1, b".".as_ptr(), 1), ds_map_new(&mut map, 1, b".".as_ptr(), 1)), (0, 24));
            let mut table = std::ptr::null_mut();
            assert_eq!(ds_table_follow(&mut table, &mut map, &mut answer), 23);
            assert_eq!((ds_table_new(&mut table, 0), ds_table_new(&mut table, 0)), (0, 24));
            assert_eq!((ds_close(&mut store), ds_close(&mut store)), (0, 23));
            assert_eq!((ds_map_close(&mut map), ds_map_close(&mut map)), (0, 23));
            assert_eq!(ds_table_submit(&mut table, &mut map, 1, 3, &mut answer), 23);
            assert_eq!((ds_table_close(&mut table), ds_table_close(&mut table)), (0, 23));
            let (mut desk, mut seat) = (std::ptr::null_mut(), std::ptr::null_mut());
            assert_eq!(ds_seat_open(&mut desk, &mut seat), 23);
            assert_eq!((ds_desk_open(&mut desk, 1, 0, 1, 1), ds_desk_open(&mut desk, 1, 0, 1, 1)), (0, 24));
            assert_eq!((ds_seat_open(&mut desk, &mut seat), ds_seat_open(&mut desk, &mut seat)), (0, 24));
            assert_eq!((ds_desk_close(&mut desk), ds_seat_close(&mut seat), ds_seat_close(&mut seat)), (44, 0, 23));
            assert_eq!((ds_desk_close(&mut desk), ds_desk_close(&mut desk)), (0, 23));
        }
    }
}
