//! What `include/zorfelith.h` declares, which tells what each call does and what its caller owes.
#![no_std]
#![allow(non_camel_case_types)]

use core::ffi::c_void;
use core::marker::PhantomData;

pub const ZF_DONE: u32 = 0;
pub const ZF_FOUND: u32 = 1;
pub const ZF_EMPTY: u32 = 2;
pub const ZF_TOO_LONG: u32 = 3;
pub const ZF_OUTSIDE: u32 = 4;
pub const ZF_ABSENT: u32 = 5;
pub const ZF_SHORT: u32 = 6;
pub const ZF_NOT_UTF8: u32 = 7;
pub const ZF_SYNTAX: u32 = 8;
pub const ZF_TOO_LARGE: u32 = 9;
pub const ZF_MEMORY: u32 = 10;
pub const ZF_NO_KIND: u32 = 11;
pub const ZF_UNKNOWN: u32 = 12;
pub const ZF_NO_LIST: u32 = 13;
pub const ZF_MISFIT: u32 = 14;
pub const ZF_MORE_AFTER: u32 = 15;
pub const ZF_MORE_BEFORE: u32 = 16;
pub const ZF_NO_STREAM: u32 = 17;
pub const ZF_FINISHED: u32 = 18;
pub const ZF_LIMIT: u32 = 19;
pub const ZF_NO_STEPPER: u32 = 20;

/// The version that these declarations are of.
pub const ZF_VERSION: u32 = 1000;

pub const ZF_LEFTMOST_FIRST: u8 = 0;
pub const ZF_ALL: u8 = 1;
pub const ZF_LEFTMOST_LONGEST: u8 = 2;

/// As the end of a range: the text's end. Of a group: it took no part.
pub const ZF_NONE: usize = usize::MAX;

/// A pointer and a length. (Rust doesn't promise that a `&[u8]` has this layout.)
#[repr(C)]
#[derive(Clone, Copy)]
pub struct zf_bytes<'a> {
    pub bytes: *const u8,
    pub len: usize,
    pub lent: PhantomData<&'a [u8]>,
}

#[repr(C)]
pub struct zf_handle {
    pub full: u8,
    pub held: *mut c_void,
}

/// It keeps the chunks that it is given by pointer and length, so they have to outlive it, or the edit that takes them out.
#[repr(C)]
pub struct zf_text {
    pub full: u8,
    pub held: *mut c_void,
}

#[repr(C)]
#[derive(Clone, Copy, Default)]
pub struct zf_bounds {
    pub start: usize,
    pub end: usize,
    pub anchored: u8,
}

#[repr(C)]
#[derive(Clone, Copy, Default)]
pub struct zf_settings {
    pub case_insensitive: u8,
    pub multi_line: u8,
    pub dot_matches_new_line: u8,
    pub crlf: u8,
    pub swap_greed: u8,
    pub bytes: u8,
    pub any_bytes: u8,
    pub split_characters: u8,
    pub kind: u8,
    pub size_limit: usize,
    pub cache_capacity: usize,
    pub full: usize,
}

#[repr(C)]
#[derive(Clone, Copy, Default)]
pub struct zf_refused {
    pub status: u32,
    pub pattern: usize,
    pub at: usize,
}

#[repr(C)]
#[derive(Clone, Copy, Debug, Default, PartialEq, Eq)]
pub struct zf_match {
    pub pattern: usize,
    pub start: usize,
    pub end: usize,
}

#[repr(C)]
#[derive(Clone, Copy)]
pub struct zf_group {
    pub start: usize,
    pub end: usize,
}

#[repr(C)]
#[derive(Clone, Copy, Default)]
pub struct zf_fault {
    pub start: usize,
    pub end: usize,
    pub len: usize,
}

#[repr(C)]
#[derive(Clone, Copy, Default)]
pub struct zf_replaced {
    pub count: usize,
    pub len: usize,
    pub at: usize,
}

#[repr(C)]
#[derive(Clone, Copy, Default)]
pub struct zf_replacement {
    pub found: zf_match,
    pub len: usize,
    pub at: usize,
}

#[repr(C)]
#[derive(Clone, Copy, Default)]
pub struct zf_parts {
    pub patterns: usize,
    pub cache: usize,
}

#[repr(C)]
#[derive(Clone, Copy, Debug, Default, PartialEq, Eq)]
pub struct zf_change {
    pub first: usize,
    pub dropped: usize,
    pub added: usize,
    pub start: usize,
    pub end: usize,
}

#[repr(C)]
#[derive(Clone, Copy, Default)]
pub struct zf_window {
    pub start: usize,
    pub is_last: u8,
}

#[repr(C)]
#[derive(Clone, Copy, Default)]
pub struct zf_kept {
    pub start: usize,
    pub len: usize,
}

#[repr(C)]
#[derive(Clone, Copy, Default)]
pub struct zf_progress {
    pub count: usize,
    pub next: usize,
}

unsafe extern "C" {
    pub fn zf_version() -> u32;
    pub fn zf_compile(
        handle: *mut zf_handle,
        patterns: *const zf_bytes<'_>,
        pattern_count: usize,
        settings: *const zf_settings,
        settings_size: usize,
        refused: *mut zf_refused,
    ) -> u32;
    pub fn zf_share(handle: *mut zf_handle, other: *mut zf_handle) -> u32;
    pub fn zf_explain(
        pattern: *const u8,
        pattern_len: usize,
        settings: *const zf_settings,
        settings_size: usize,
        fault: *mut zf_fault,
        words: *mut u8,
        words_len: usize,
    ) -> u32;
    pub fn zf_escape(text: *const u8, text_len: usize, place: *mut u8, place_len: usize, len: *mut usize) -> u32;
    pub fn zf_free(handle: *mut zf_handle);
    pub fn zf_is_match(handle: *mut zf_handle, chunks: *const zf_bytes<'_>, chunk_count: usize, start: usize, end: usize) -> u32;
    pub fn zf_find(
        handle: *mut zf_handle,
        chunks: *const zf_bytes<'_>,
        chunk_count: usize,
        start: usize,
        end: usize,
        found: *mut zf_match,
    ) -> u32;
    pub fn zf_match_at(
        handle: *mut zf_handle,
        chunks: *const zf_bytes<'_>,
        chunk_count: usize,
        start: usize,
        end: usize,
        found: *mut zf_match,
    ) -> u32;
    pub fn zf_find_last(
        handle: *mut zf_handle,
        chunks: *const zf_bytes<'_>,
        chunk_count: usize,
        start: usize,
        end: usize,
        place: usize,
        found: *mut zf_match,
    ) -> u32;
    pub fn zf_find_partial(
        handle: *mut zf_handle,
        chunks: *const zf_bytes<'_>,
        chunk_count: usize,
        start: usize,
        found: *mut zf_match,
        from: *mut usize,
    ) -> u32;
    pub fn zf_window_find(
        handle: *mut zf_handle,
        chunks: *const zf_bytes<'_>,
        chunk_count: usize,
        window: *const zf_window,
        from: *mut usize,
        end: usize,
        found: *mut zf_match,
    ) -> u32;
    pub fn zf_find_groups(
        handle: *mut zf_handle,
        chunks: *const zf_bytes<'_>,
        chunk_count: usize,
        start: usize,
        end: usize,
        found: *mut zf_match,
        groups: *mut zf_group,
        group_count: usize,
    ) -> u32;
    pub fn zf_which_patterns(
        handle: *mut zf_handle,
        chunks: *const zf_bytes<'_>,
        chunk_count: usize,
        start: usize,
        end: usize,
        marks: *mut u8,
        mark_count: usize,
    ) -> u32;
    pub fn zf_restart(handle: *mut zf_handle, from: usize, follows: u8) -> u32;
    pub fn zf_next(
        handle: *mut zf_handle,
        chunks: *const zf_bytes<'_>,
        chunk_count: usize,
        end: usize,
        batch: *mut zf_match,
        batch_len: usize,
        progress: *mut zf_progress,
    ) -> u32;
    pub fn zf_replace(
        handle: *mut zf_handle,
        chunks: *const zf_bytes<'_>,
        chunk_count: usize,
        template_bytes: *const u8,
        template_len: usize,
        place: *mut u8,
        place_len: usize,
        replaced: *mut zf_replaced,
    ) -> u32;
    pub fn zf_replace_one(
        handle: *mut zf_handle,
        chunks: *const zf_bytes<'_>,
        chunk_count: usize,
        start: usize,
        template_bytes: *const u8,
        template_len: usize,
        place: *mut u8,
        place_len: usize,
        replacement: *mut zf_replacement,
    ) -> u32;
    pub fn zf_live_new(handle: *mut zf_handle, chunks: *const zf_bytes<'_>, chunk_count: usize) -> u32;
    pub fn zf_live_edit(
        handle: *mut zf_handle,
        start: usize,
        end: usize,
        inserted: usize,
        chunks: *const zf_bytes<'_>,
        chunk_count: usize,
        change: *mut zf_change,
    ) -> u32;
    pub fn zf_live_free(handle: *mut zf_handle) -> u32;
    pub fn zf_live_len(handle: *mut zf_handle, len: *mut usize) -> u32;
    pub fn zf_live_get(handle: *mut zf_handle, index: usize, found: *mut zf_match) -> u32;
    pub fn zf_live_next(handle: *mut zf_handle, place: usize, found: *mut zf_match) -> u32;
    pub fn zf_live_previous(handle: *mut zf_handle, place: usize, found: *mut zf_match) -> u32;
    pub fn zf_live_window(
        handle: *mut zf_handle,
        start: usize,
        end: usize,
        batch: *mut zf_match,
        batch_len: usize,
        count: *mut usize,
    ) -> u32;
    pub fn zf_stream_new(handle: *mut zf_handle) -> u32;
    pub fn zf_stream_limit(handle: *mut zf_handle, limit: usize) -> u32;
    pub fn zf_stream_feed(handle: *mut zf_handle, bytes: *const u8, len: usize) -> u32;
    pub fn zf_stream_next(handle: *mut zf_handle, found: *mut zf_match) -> u32;
    pub fn zf_stream_finish(handle: *mut zf_handle) -> u32;
    pub fn zf_stream_kept(handle: *mut zf_handle, place: *mut u8, place_len: usize, kept: *mut zf_kept) -> u32;
    pub fn zf_stream_free(handle: *mut zf_handle) -> u32;
    pub fn zf_step_new(handle: *mut zf_handle, start: usize) -> u32;
    pub fn zf_step_start(handle: *mut zf_handle, start: usize) -> u32;
    pub fn zf_step_resume(
        handle: *mut zf_handle,
        chunks: *const zf_bytes<'_>,
        chunk_count: usize,
        budget: usize,
        found: *mut zf_match,
    ) -> u32;
    pub fn zf_step_position(handle: *mut zf_handle, position: *mut usize) -> u32;
    pub fn zf_step_free(handle: *mut zf_handle) -> u32;
    pub fn zf_text_new(text: *mut zf_text, chunks: *const zf_bytes<'_>, chunk_count: usize) -> u32;
    pub fn zf_text_edit(
        text: *mut zf_text,
        start: usize,
        end: usize,
        chunks: *const zf_bytes<'_>,
        chunk_count: usize,
    ) -> u32;
    pub fn zf_text_free(text: *mut zf_text);
    pub fn zf_text_find(
        handle: *mut zf_handle,
        text: *mut zf_text,
        bounds: *const zf_bounds,
        found: *mut zf_match,
    ) -> u32;
    pub fn zf_text_find_groups(
        handle: *mut zf_handle,
        text: *mut zf_text,
        start: usize,
        end: usize,
        found: *mut zf_match,
        groups: *mut zf_group,
        group_count: usize,
    ) -> u32;
    pub fn zf_text_next(
        handle: *mut zf_handle,
        text: *mut zf_text,
        end: usize,
        batch: *mut zf_match,
        batch_len: usize,
        progress: *mut zf_progress,
    ) -> u32;
    pub fn zf_text_find_partial(
        handle: *mut zf_handle,
        text: *mut zf_text,
        start: usize,
        found: *mut zf_match,
        from: *mut usize,
    ) -> u32;
    pub fn zf_text_live_new(handle: *mut zf_handle, text: *mut zf_text) -> u32;
    pub fn zf_text_live_edit(
        handle: *mut zf_handle,
        start: usize,
        end: usize,
        inserted: usize,
        text: *mut zf_text,
        change: *mut zf_change,
    ) -> u32;
    pub fn zf_pattern_count(handle: *mut zf_handle, count: *mut usize) -> u32;
    pub fn zf_group_count(handle: *mut zf_handle, pattern: usize, count: *mut usize) -> u32;
    pub fn zf_group_name(
        handle: *mut zf_handle,
        pattern: usize,
        group: usize,
        name: *mut u8,
        name_len: usize,
        len: *mut usize,
    ) -> u32;
    pub fn zf_group_number(handle: *mut zf_handle, pattern: usize, name: *const u8, name_len: usize, number: *mut usize) -> u32;
    pub fn zf_memory(handle: *mut zf_handle, bytes: *mut usize) -> u32;
    pub fn zf_memory_parts(handle: *mut zf_handle, parts: *mut zf_parts) -> u32;
}
