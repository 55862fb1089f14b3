//! The declarations of `capn.h`, and its numbers.
//!
//! The comments of `capn.h` say what a caller must guarantee. The crate `capn` is the safe layer over them.
#![no_std]
#![allow(non_camel_case_types)]

use core::ffi::c_void;

mod constants;
pub use constants::*;

/// `char` of C, as it is on x86-64.
pub type c_char = i8;

/// The limits of what a call accepts.
#[repr(C)]
#[derive(Clone, Copy, Debug, PartialEq, Eq)]
pub struct capn_limits {
    // c/limits.txt: fields of c in rust
    pub message_words: u32,
    pub budget: u32,
    pub depth: u32,
    pub tariff: u32,
    // c/limits.txt ends
}

/// The numbers that a call reports beside its status.
#[repr(C)]
#[derive(Clone, Copy, Debug, Default, PartialEq, Eq)]
pub struct capn_report {
    pub length: u64,
    pub at: u64,
    pub paid: u32,
    pub visits: u32,
    pub segment: u32,
    pub word: u32,
}

/// The statistics of a message that `capn_survey` reports.
#[repr(C)]
#[derive(Clone, Copy, Debug, Default, PartialEq, Eq)]
pub struct capn_figures {
    pub words: u32,
    pub segments: u32,
    pub paid: u32,
    pub visits: u32,
    pub depth: u32,
    pub has_capability: u32,
    pub capability: u32,
    pub canonical: u32,
}

/// An entry of an index: what a pointer refers to.
#[repr(C)]
#[derive(Clone, Copy, Debug, Default, PartialEq, Eq)]
pub struct capn_entry {
    pub offset: u64,
    pub count: u32,
    pub span: u32,
    pub words: u16,
    pub slots: u16,
    pub kind: u32,
}

/// The first difference of a valid message from its canonical form.
#[repr(C)]
#[derive(Clone, Copy, Debug, Default, PartialEq, Eq)]
pub struct capn_departed {
    pub is: u64,
    pub canonical: u64,
    pub kind: u32,
    pub owner: u32,
    pub word: u32,
    pub count: u32,
    pub numbers: u32,
    pub zero: u32,
}

/// A line of a message: words one after another in one segment that are alike.
#[repr(C)]
#[derive(Clone, Copy, Debug, Default, PartialEq, Eq)]
pub struct capn_line {
    pub offset: u64,
    pub segment: u32,
    pub word: u32,
    pub words: u32,
    pub times: u32,
    pub slot_segment: u32,
    pub slot_word: u32,
    pub cut: u32,
    pub not_zero: u32,
    pub kind: u32,
    pub flags: u32,
}

/// A segment of a message: `count` words of 8 bytes, at any address.
#[repr(C)]
#[derive(Clone, Copy, Debug)]
pub struct capn_segment {
    pub words: *const c_void,
    pub count: usize,
}

/// The types have the sizes that the library gives them.
const _: () = assert!(
    core::mem::size_of::<capn_limits>() == 16
        && core::mem::size_of::<capn_report>() == 32
        && core::mem::size_of::<capn_figures>() == 32
        && core::mem::size_of::<capn_entry>() == 24
        && core::mem::size_of::<capn_segment>() == 16
        && core::mem::size_of::<capn_departed>() == 40
        && core::mem::size_of::<capn_line>() == 48
);

extern "C" {
    pub fn capn_canonical(
        form: u32,
        bytes: *const u8,
        size: usize,
        limits: *const capn_limits,
        out: *mut u8,
        room: usize,
        report: *mut capn_report,
    ) -> capn_status;
    pub fn capn_canonical_with_scratch(
        form: u32,
        bytes: *const u8,
        size: usize,
        limits: *const capn_limits,
        scratch: *mut c_void,
        words: usize,
        out: *mut u8,
        room: usize,
        report: *mut capn_report,
    ) -> capn_status;
    pub fn capn_is_canonical(
        bytes: *const u8,
        size: usize,
        limits: *const capn_limits,
        report: *mut capn_report,
    ) -> capn_status;
    pub fn capn_hash(
        form: u32,
        bytes: *const u8,
        size: usize,
        limits: *const capn_limits,
        digest: *mut u8,
        report: *mut capn_report,
    ) -> capn_status;
    pub fn capn_check(
        form: u32,
        bytes: *const u8,
        size: usize,
        limits: *const capn_limits,
        report: *mut capn_report,
    ) -> capn_status;
    pub fn capn_pack(
        bytes: *const u8,
        size: usize,
        out: *mut u8,
        room: usize,
        report: *mut capn_report,
    ) -> capn_status;
    pub fn capn_unpack(
        bytes: *const u8,
        size: usize,
        max_words: u32,
        out: *mut u8,
        room: usize,
        report: *mut capn_report,
    ) -> capn_status;
    pub fn capn_version() -> *const c_char;
    pub fn capn_status_text(status: capn_status) -> *const c_char;
    pub fn capn_first(
        bytes: *const u8,
        size: usize,
        limits: *const capn_limits,
        report: *mut capn_report,
    ) -> capn_status;
    pub fn capn_unpack_some(
        bytes: *const u8,
        size: usize,
        out: *mut u8,
        room: usize,
        report: *mut capn_report,
    ) -> capn_status;
    pub fn capn_survey(
        form: u32,
        bytes: *const u8,
        size: usize,
        limits: *const capn_limits,
        figures: *mut capn_figures,
        report: *mut capn_report,
    ) -> capn_status;
    pub fn capn_index(
        form: u32,
        bytes: *const u8,
        size: usize,
        limits: *const capn_limits,
        entries: *mut capn_entry,
        room: usize,
        report: *mut capn_report,
    ) -> capn_status;
    pub fn capn_show(
        form: u32,
        bytes: *const u8,
        size: usize,
        limits: *const capn_limits,
        style: u32,
        out: *mut c_char,
        room: usize,
        report: *mut capn_report,
    ) -> capn_status;
    pub fn capn_refusal_way(
        form: u32,
        bytes: *const u8,
        size: usize,
        limits: *const capn_limits,
        way: *mut u32,
        most_numbers: usize,
        report: *mut capn_report,
    ) -> capn_status;
    pub fn capn_departure(
        form: u32,
        bytes: *const u8,
        size: usize,
        limits: *const capn_limits,
        departed: *mut capn_departed,
        way: *mut u32,
        most_numbers: usize,
        report: *mut capn_report,
    ) -> capn_status;
    pub fn capn_annotate(
        form: u32,
        bytes: *const u8,
        size: usize,
        limits: *const capn_limits,
        lines: *mut capn_line,
        most_lines: usize,
        report: *mut capn_report,
    ) -> capn_status;
    pub fn capn_same(
        form: u32,
        a: *const u8,
        size_a: usize,
        b: *const u8,
        size_b: usize,
        limits: *const capn_limits,
        which: *mut u32,
        report: *mut capn_report,
    ) -> capn_status;
    pub fn capn_canonical_segments(
        segments: *const capn_segment,
        count: usize,
        limits: *const capn_limits,
        out: *mut u8,
        room: usize,
        report: *mut capn_report,
    ) -> capn_status;
    pub fn capn_hash_segments(
        segments: *const capn_segment,
        count: usize,
        limits: *const capn_limits,
        digest: *mut u8,
        report: *mut capn_report,
    ) -> capn_status;
    pub fn capn_check_segments(
        segments: *const capn_segment,
        count: usize,
        limits: *const capn_limits,
        report: *mut capn_report,
    ) -> capn_status;
    pub fn capn_survey_segments(
        segments: *const capn_segment,
        count: usize,
        limits: *const capn_limits,
        figures: *mut capn_figures,
        report: *mut capn_report,
    ) -> capn_status;
    pub fn capn_refusal_text(
        status: capn_status,
        report: *const capn_report,
        out: *mut c_char,
        room: usize,
    ) -> usize;
    pub fn capn_status_name(status: capn_status) -> *const c_char;
}
