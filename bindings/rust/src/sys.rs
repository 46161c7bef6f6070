//! The calls of `ti.h` that the binding needs, as C has them.

use std::marker::{PhantomData, PhantomPinned};
use std::os::raw::{c_char, c_int, c_void};

pub const OK: u32 = 0;
pub const BAD_NAME: u32 = 17;
pub const ABSENT: u32 = 18;
pub const UNFINISHED: u32 = 24;

/// `struct ti_entry` and `struct ti_terminal`, into which the library alone looks.
#[repr(C)]
pub struct Opaque {
    _bytes: [u8; 0],
    _marker: PhantomData<(*mut u8, PhantomPinned)>,
}

/// `struct ti_text`
#[repr(C)]
#[derive(Clone, Copy)]
pub struct Text {
    pub bytes: *const u8,
    pub size: usize,
}

/// `struct ti_parameter`
#[repr(C)]
pub struct Parameter {
    pub kind: u32,
    pub number: i32,
    pub text: Text,
}

/// `struct ti_value`
#[repr(C)]
pub struct Value {
    pub kind: u32,
    pub is_present: bool,
    pub number: u32,
    pub text: Text,
}

/// `struct ti_change`
#[repr(C)]
pub struct Change {
    pub name: Text,
    pub value: Value,
}

/// `struct ti_outcome`
#[repr(C)]
pub struct Outcome {
    pub status: u32,
    pub size: usize,
}

/// `struct ti_size`
#[repr(C)]
pub struct Size {
    pub height: u32,
    pub width: u32,
}

#[link(name = "ti")]
extern "C" {
    pub fn ti_open_path(name: *const c_char, entry: *mut *mut Opaque, path: *mut *mut c_char) -> u32;
    pub fn ti_entry_new(bytes: *const u8, size: usize, entry: *mut *mut Opaque) -> u32;
    pub fn ti_entry_bytes(entry: *const Opaque, text: *mut Text);
    pub fn ti_entry_change(
        entry: *const Opaque,
        changes: *const Change,
        count: usize,
        changed: *mut *mut Opaque,
    ) -> Outcome;
    pub fn ti_entry_free(entry: *mut Opaque);
    pub fn ti_names(entry: *const Opaque, text: *mut Text);
    pub fn ti_long_name(entry: *const Opaque, text: *mut Text);
    pub fn ti_flag_named(entry: *const Opaque, name: *const c_char) -> i32;
    pub fn ti_number_named(entry: *const Opaque, name: *const c_char) -> i64;
    pub fn ti_string_named(entry: *const Opaque, name: *const c_char, found: *mut Text) -> i32;
    pub fn ti_strerror(status: u32) -> *const c_char;
    pub fn ti_terminal_open(name: *const c_char, file: c_int, terminal: *mut *mut Opaque) -> u32;
    pub fn ti_terminal_close(terminal: *mut Opaque);
    pub fn ti_terminal_entry(terminal: *const Opaque) -> *const Opaque;
    pub fn ti_terminal_key(
        terminal: *const Opaque,
        bytes: *const u8,
        size: usize,
        name: *mut Text,
    ) -> Outcome;
    pub fn ti_terminal_path(terminal: *const Opaque) -> *const c_char;
    pub fn ti_terminal_size(terminal: *const Opaque) -> Size;
    pub fn ti_terminal_change(
        terminal: *mut Opaque,
        changes: *const Change,
        count: usize,
    ) -> Outcome;
    pub fn ti_put_named_values(
        terminal: *mut Opaque,
        name: *const c_char,
        params: *const Parameter,
        count: usize,
    ) -> Outcome;
    pub fn ti_put_text(terminal: *mut Opaque, bytes: *const u8, size: usize) -> Outcome;
}

extern "C" {
    pub fn free(block: *mut c_void);
}
