//! The C interface, as `include/wagtailfen.h` declares it. A slice is a pointer and then a length. Prefer the safe functions of this
//! crate's root.
//!
//! # Safety
//!
//! Each function asks the same of its slices, and nothing of their bytes:
//!
//! - A pointer is not null, also where the slice is empty.
//! - A slice that is read is as many initialised bytes as its length says, and nothing writes to them during the call.
//! - A slice that is written is that, too; it can be written, it overlaps no other slice of the call, and nothing else reads it or
//!   writes to it during the call.
use crate::{Defined, Expanded, Found, Passed, Resolved, Text};

unsafe extern "C" {
    /// `struct wf_resolved wf_resolve(..)`
    ///
    /// # Safety
    ///
    /// `sheet` and `path` are slices that are read, `out` one that is written, as the module says.
    pub fn wf_resolve(
        sheet: *const u8,
        sheet_len: usize,
        path: *const u8,
        path_len: usize,
        out: *mut u8,
        out_len: usize,
    ) -> Resolved;

    /// `struct wf_found wf_find_file(..)`
    ///
    /// # Safety
    ///
    /// `bundle` and `path` are slices that are read, as the module says.
    pub fn wf_find_file(bundle: *const u8, bundle_len: usize, path: *const u8, path_len: usize) -> Found;

    /// `struct wf_text wf_resolve_includes(..)`
    ///
    /// # Safety
    ///
    /// `bundle`, `folder` and `text` are slices that are read, `out` one that is written, as the module says.
    pub fn wf_resolve_includes(
        bundle: *const u8,
        bundle_len: usize,
        folder: *const u8,
        folder_len: usize,
        text: *const u8,
        text_len: usize,
        out: *mut u8,
        out_len: usize,
    ) -> Text;

    /// `struct wf_expanded wf_preprocess_typst(..)`
    ///
    /// # Safety
    ///
    /// `bundle`, `text` and `sheet` are slices that are read, `out` and `left` slices that are written, as the module says.
    pub fn wf_preprocess_typst(
        bundle: *const u8,
        bundle_len: usize,
        text: *const u8,
        text_len: usize,
        sheet: *const u8,
        sheet_len: usize,
        out: *mut u8,
        out_len: usize,
        left: *mut u8,
        left_len: usize,
    ) -> Expanded;

    /// `struct wf_defined wf_parse_definitions(..)`
    ///
    /// # Safety
    ///
    /// `bundle` and `path` are slices that are read, `left` and `work` slices that are written, as the module says.
    pub fn wf_parse_definitions(
        bundle: *const u8,
        bundle_len: usize,
        path: *const u8,
        path_len: usize,
        left: *mut u8,
        left_len: usize,
        work: *mut u8,
        work_len: usize,
    ) -> Defined;

    /// `struct wf_passed wf_pass(..)`
    ///
    /// # Safety
    ///
    /// `bundle`, `folder`, `text` and `sheet` are slices that are read, `middle`, `out` and `left` slices that are written, as the
    /// module says.
    pub fn wf_pass(
        bundle: *const u8,
        bundle_len: usize,
        folder: *const u8,
        folder_len: usize,
        text: *const u8,
        text_len: usize,
        sheet: *const u8,
        sheet_len: usize,
        middle: *mut u8,
        middle_len: usize,
        out: *mut u8,
        out_len: usize,
        left: *mut u8,
        left_len: usize,
    ) -> Passed;

    /// `struct wf_text wf_test_load(..)`
    ///
    /// # Safety
    ///
    /// `out` is a slice that is written, as the module says.
    pub fn wf_test_load(seed: u32, definitions: bool, out: *mut u8, out_len: usize) -> Text;
}
