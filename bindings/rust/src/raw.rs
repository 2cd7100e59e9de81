//! The calls of the C library, as `npss.h` has them.

use std::ffi::c_void;

/// How a call ended.
#[repr(C)]
#[derive(Clone, Copy, Debug)]
pub struct Answer {
    pub status: u32,
    pub fault: u32,
    pub code: u32,
    pub place: u64,
    pub length: u64,
}

/// A name in ASCII, and NULs behind it to the end.
#[repr(C)]
#[derive(Clone, Copy, PartialEq, Eq)]
pub struct Name {
    pub text: [u8; 32],
}

/// A handle on a table, a node or a stream; zeros are a closed one.
#[repr(C)]
pub struct Handle {
    pub is_open: u8,
    pub held: *mut c_void,
}

/// What is asked of each line.
#[repr(C)]
#[derive(Clone, Copy, Debug)]
pub struct Asked {
    pub form: u8,
    pub end: u8,
}

pub const DONE: u32 = 0;
pub const UNASSIGNED: u32 = 1;
pub const NOT_UTF8: u32 = 2;
pub const NO_ROOM: u32 = 3;
pub const MEMORY: u32 = 4;
pub const CLOSED: u32 = 5;
pub const DATA: u32 = 7;
pub const EXCLUSIONS: u32 = 8;
pub const TABLES: u32 = 9;
pub const TOO_LARGE: u32 = 10;
pub const DIFFERENT: u32 = 11;
pub const KNOWN: u32 = 13;
pub const NOT_KEPT: u32 = 14;
pub const TOO_LONG: u32 = 15;
pub const FULL: u32 = 16;
pub const MALFORMED: u32 = 17;
pub const OTHER_FORM: u32 = 18;
pub const KEY_DIFFERS: u32 = 19;
pub const OLDER_TABLES: u32 = 20;
pub const BAD_ENTRY: u32 = 21;
pub const BAD_ROOM: u32 = 22;
pub const FOLDING: u32 = 24;
pub const FOLDINGS: u32 = 25;
pub const NO_FOLDING: u32 = 26;

extern "C" {
    pub fn npss_open(
        handle: *mut Handle,
        data: *const u8,
        data_length: usize,
        exclusions: *const u8,
        exclusions_length: usize,
    ) -> Answer;
    pub fn npss_open_caseless(
        handle: *mut Handle,
        data: *const u8,
        data_length: usize,
        exclusions: *const u8,
        exclusions_length: usize,
        folding: *const u8,
        folding_length: usize,
    ) -> Answer;
    pub fn npss_share(handle: *mut Handle, other: *mut Handle) -> Answer;
    pub fn npss_key(
        handle: *mut Handle,
        form: u8,
        text: *const u8,
        text_length: usize,
        room: *mut u8,
        room_length: usize,
    ) -> Answer;
    pub fn npss_normalize(
        handle: *mut Handle,
        form: u8,
        text: *const u8,
        text_length: usize,
        room: *mut u8,
        room_length: usize,
    ) -> Answer;
    pub fn npss_caseless_key(
        handle: *mut Handle,
        form: u8,
        text: *const u8,
        text_length: usize,
        room: *mut u8,
        room_length: usize,
    ) -> Answer;
    pub fn npss_answers(
        handle: *mut Handle,
        asked: *const Asked,
        text: *const u8,
        text_length: usize,
        room: *mut u8,
        room_length: usize,
    ) -> Answer;
    pub fn npss_caseless_answers(
        handle: *mut Handle,
        asked: *const Asked,
        text: *const u8,
        text_length: usize,
        room: *mut u8,
        room_length: usize,
    ) -> Answer;
    pub fn npss_is_form(
        handle: *mut Handle,
        form: u8,
        text: *const u8,
        text_length: usize,
    ) -> Answer;
    pub fn npss_keeps_ascii(handle: *mut Handle, form: u8) -> Answer;
    pub fn npss_equivalent(
        handle: *mut Handle,
        compat: bool,
        left: *const u8,
        left_length: usize,
        right: *const u8,
        right_length: usize,
    ) -> Answer;
    pub fn npss_caseless_match(
        handle: *mut Handle,
        compat: bool,
        left: *const u8,
        left_length: usize,
        right: *const u8,
        right_length: usize,
    ) -> Answer;
    pub fn npss_extends(older: *mut Handle, newer: *mut Handle) -> Answer;
    pub fn npss_caseless_extends(older: *mut Handle, newer: *mut Handle) -> Answer;
    pub fn npss_count(handle: *mut Handle) -> Answer;
    pub fn npss_close(handle: *mut Handle);
    pub fn npss_property(handle: *mut Handle, code: u32) -> Answer;
    pub fn npss_decomposition(
        handle: *mut Handle,
        compat: bool,
        code: u32,
        room: *mut u8,
        room_length: usize,
    ) -> Answer;
    pub fn npss_composite(handle: *mut Handle, first: u32, second: u32) -> Answer;
    pub fn npss_first_unassigned(
        handle: *mut Handle,
        text: *const u8,
        text_length: usize,
    ) -> Answer;
    pub fn npss_stream_new(stream: *mut Handle, tables: *mut Handle, form: u8) -> Answer;
    pub fn npss_stream_feed(stream: *mut Handle, piece: *const u8, piece_length: usize) -> Answer;
    pub fn npss_stream_take(stream: *mut Handle, room: *mut u8, room_length: usize) -> Answer;
    pub fn npss_stream_finish(stream: *mut Handle) -> Answer;
    pub fn npss_stream_close(stream: *mut Handle);
    pub fn npss_node_new(node: *mut Handle, tables: *mut Handle, form: u8, room: u32) -> Answer;
    pub fn npss_node_restore(
        node: *mut Handle,
        tables: *mut Handle,
        form: u8,
        room: u32,
        image: *const u8,
        image_length: usize,
    ) -> Answer;
    pub fn npss_node_accept(node: *mut Handle, string: *const u8, string_length: usize) -> Answer;
    pub fn npss_node_message(
        node: *mut Handle,
        string: *const u8,
        string_length: usize,
        room: *mut u8,
        room_length: usize,
    ) -> Answer;
    pub fn npss_node_take(node: *mut Handle, message: *const u8, message_length: usize) -> Answer;
    pub fn npss_node_forget(node: *mut Handle, string: *const u8, string_length: usize) -> Answer;
    pub fn npss_node_same(
        node: *mut Handle,
        left: *const u8,
        left_length: usize,
        right: *const u8,
        right_length: usize,
    ) -> Answer;
    pub fn npss_node_key(
        node: *mut Handle,
        string: *const u8,
        string_length: usize,
        room: *mut u8,
        room_length: usize,
    ) -> Answer;
    pub fn npss_node_entry(
        node: *mut Handle,
        index: u64,
        room: *mut u8,
        room_length: usize,
    ) -> Answer;
    pub fn npss_node_count(node: *mut Handle) -> Answer;
    pub fn npss_node_image(node: *mut Handle, room: *mut u8, room_length: usize) -> Answer;
    pub fn npss_node_upgrade(node: *mut Handle, tables: *mut Handle) -> Answer;
    pub fn npss_node_version(node: *mut Handle) -> Answer;
    pub fn npss_node_close(node: *mut Handle);
    pub fn npss_fault_name(status: u32, fault: u32) -> Name;
}
