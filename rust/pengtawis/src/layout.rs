//! Checks that the structs of ffi.rs have the layout that tests/programs/c_abi.txt records for `c/ds.h`.

use crate::{ffi, Cause, Class};
use std::mem::{align_of, size_of};

/// A struct's lines, each with the place and the size of a member.
macro_rules! layout {
    ($of:literal $type:ty { $($member:ident),* }) => {{
        let it = std::mem::MaybeUninit::<$type>::zeroed();
        // SAFETY: all members are numbers, for which zeros are values.
        let it = unsafe { it.assume_init() };
        let begin = &it as *const $type as usize;
        let mut lines = vec![format!("struct {} {}", $of, size_of::<$type>())];
        $(lines.push(format!("member {}.{} at {} of {}", $of, stringify!($member), &it.$member as *const _ as usize - begin, size_of_val(&it.$member)));)*
        lines
    }};
}

fn size_of_val<T>(_: &T) -> usize {
    size_of::<T>()
}

const NUMBERS: [(&str, u32); 14] = [
    ("DS_PUBLISH", ffi::command::PUBLISH), ("DS_MERGE", ffi::command::MERGE), ("DS_JOURNALED", ffi::word::JOURNALED),
    ("DS_SNAPPED", ffi::word::SNAPPED), ("DS_PAGED", ffi::word::PAGED), ("DS_STOPPED", ffi::word::STOPPED),
    ("DS_REFUSED", ffi::word::REFUSED), ("DS_BADLINE", ffi::word::BADLINE), ("DS_RS_UP", ffi::event::UP), ("DS_RS_TICK", ffi::event::TICK),
    ("DS_RS_SWEEP", ffi::action::SWEEP), ("DS_RS_ISWAITING", ffi::state::WAITING), ("DS_RS_UPDATE", Cause::Update as u32),
    ("DS_RS_SERVER", Class::Server as u32),
];

#[test]
fn as_the_header() {
    let recorded = include_str!("../../../tests/programs/c_abi.txt");
    let mut lines = layout!("ds_request" ffi::Request {
        incarnation, position, text_at, text_length, command, generation, epoch, seq, value, sub, max, slot, value_slot, kinds, overwrite,
        initial, under, behind, name_length, name
    });
    lines.extend(layout!("ds_answer" ffi::Answer {
        count, taken, stale, before, after, pieces, word, refusal, epoch, seq, value, value_slot, kind, last, owed
    }));
    lines.extend(layout!("ds_given" ffi::Given { count, length, stop }));
    lines.extend(layout!("ds_map_key" ffi::MapKey { kind, name_length, name }));
    lines.extend(layout!("ds_move" ffi::Move { id, kind, generation, slot, unit }));
    lines.extend(layout!("ds_settings_fault" ffi::SettingsFault { line, cause, service }));
    lines.extend(layout!("ds_rs_event" ffi::Event { tick, kind, cause, generation, slot, label_length, label }));
    lines.extend(layout!("ds_rs_action" ffi::Action { kind, generation, word, refusal, slot, gone, label_length, label }));
    lines.extend(layout!("ds_rs_service" ffi::Service {
        until, state, generation, failures, period, limit, slot, service_class, has_unit, unit, label_length, label
    }));
    lines.extend(["ds_handle", "ds_desk", "ds_seat"].map(|it| format!("struct {it} {}", size_of::<ffi::Handle>())));
    lines.push(format!("number DS_MAX_PIECE {}", ffi::MAX_PIECE));
    lines.extend(NUMBERS.iter().map(|it| format!("number {} {}", it.0, it.1)));
    let is_recorded = |it: &str| recorded.lines().any(|line| line == it);
    assert_eq!(lines.iter().filter(|it| !is_recorded(it)).collect::<Vec<_>>(), Vec::<&String>::new());
    let members = |of: &str| recorded.lines().filter(|it| it.starts_with(&format!("member {of}."))).count();
    let structs = [
        "ds_request", "ds_answer", "ds_given", "ds_map_key", "ds_move", "ds_settings_fault", "ds_rs_event", "ds_rs_action", "ds_rs_service",
    ];
    let of_all: usize = structs.iter().map(|it| members(it)).sum();
    assert_eq!(of_all, lines.iter().filter(|it| it.starts_with("member")).count());
    assert_eq!(align_of::<ffi::Request>(), 8);
}
