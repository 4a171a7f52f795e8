//! The eight functions of include/oer.h, answered by the peer: a stand-in for liboer_c.a while bindings are tested, and
//! the other side when the comparison is tried on itself.

#![allow(clippy::too_many_arguments)]

use crate::operations;
use crate::reply::Reply;

#[repr(C)]
pub struct Setting {
    pub number: u64,
    pub part: u64,
    pub place: u64,
    pub what: u64,
    pub word: u64,
}

#[repr(C)]
pub struct Text {
    pub found: u64,
    pub start: u64,
    pub length: u64,
}

/// # Safety
/// The pointer is valid for `len` elements.
unsafe fn lent<'a, T>(pointer: *const T, len: usize) -> &'a [T] {
    if len == 0 { &[] } else { unsafe { std::slice::from_raw_parts(pointer, len) } }
}

/// # Safety
/// The pointer is valid for `len` elements, which nothing else refers to.
unsafe fn lent_mut<'a, T>(pointer: *mut T, len: usize) -> &'a mut [T] {
    if len == 0 { &mut [] } else { unsafe { std::slice::from_raw_parts_mut(pointer, len) } }
}

/// # Safety
/// As include/oer.h says: every pointer is valid for the length behind it.
#[unsafe(no_mangle)]
pub unsafe extern "C" fn oer_check(rows: *const u64, rows_len: usize, items: *const u64, items_len: usize) -> Reply {
    unsafe { operations::check(lent(rows, rows_len), lent(items, items_len)) }
}

/// # Safety
/// As include/oer.h says: every pointer is valid for the length behind it.
#[unsafe(no_mangle)]
pub unsafe extern "C" fn oer_validate(
    rows: *const u64,
    rows_len: usize,
    items: *const u64,
    items_len: usize,
    row: u64,
    message: *const u8,
    message_len: usize,
) -> Reply {
    unsafe { operations::validate(lent(rows, rows_len), lent(items, items_len), row, lent(message, message_len)) }
}

/// # Safety
/// As include/oer.h says: every pointer is valid for the length behind it, and what is written overlaps nothing else.
#[unsafe(no_mangle)]
pub unsafe extern "C" fn oer_decode(
    rows: *const u64,
    rows_len: usize,
    items: *const u64,
    items_len: usize,
    row: u64,
    message: *const u8,
    message_len: usize,
    nodes: *mut u64,
    nodes_len: usize,
    contents: *mut u8,
    contents_len: usize,
) -> Reply {
    unsafe {
        operations::decode(
            lent(rows, rows_len),
            lent(items, items_len),
            row,
            lent(message, message_len),
            lent_mut(nodes, nodes_len),
            lent_mut(contents, contents_len),
        )
    }
}

/// # Safety
/// As include/oer.h says: every pointer is valid for the length behind it.
#[unsafe(no_mangle)]
pub unsafe extern "C" fn oer_measure(
    rows: *const u64,
    rows_len: usize,
    items: *const u64,
    items_len: usize,
    row: u64,
    nodes: *const u64,
    nodes_len: usize,
    contents: *const u8,
    contents_len: usize,
) -> Reply {
    unsafe {
        operations::measure(
            lent(rows, rows_len),
            lent(items, items_len),
            row,
            lent(nodes, nodes_len),
            lent(contents, contents_len),
        )
    }
}

/// # Safety
/// As include/oer.h says: every pointer is valid for the length behind it, and what is written overlaps nothing else.
#[unsafe(no_mangle)]
pub unsafe extern "C" fn oer_encode(
    rows: *const u64,
    rows_len: usize,
    items: *const u64,
    items_len: usize,
    row: u64,
    nodes: *const u64,
    nodes_len: usize,
    contents: *const u8,
    contents_len: usize,
    out: *mut u8,
    out_len: usize,
) -> Reply {
    unsafe {
        operations::encode(
            lent(rows, rows_len),
            lent(items, items_len),
            row,
            lent(nodes, nodes_len),
            lent(contents, contents_len),
            lent_mut(out, out_len),
        )
    }
}

/// # Safety
/// As include/oer.h says: every pointer is valid for the length behind it, and what is written overlaps nothing else.
#[unsafe(no_mangle)]
pub unsafe extern "C" fn oer_edit(
    rows: *const u64,
    rows_len: usize,
    items: *const u64,
    items_len: usize,
    row: u64,
    message: *const u8,
    message_len: usize,
    path: *const u64,
    path_len: usize,
    nodes: *const u64,
    nodes_len: usize,
    contents: *const u8,
    contents_len: usize,
    out: *mut u8,
    out_len: usize,
) -> Reply {
    unsafe {
        operations::edit(
            lent(rows, rows_len),
            lent(items, items_len),
            row,
            lent(message, message_len),
            lent(path, path_len),
            lent(nodes, nodes_len),
            lent(contents, contents_len),
            lent_mut(out, out_len),
        )
    }
}

/// # Safety
/// As include/oer.h says: every pointer is valid for the length behind it.
#[unsafe(no_mangle)]
pub unsafe extern "C" fn oer_read_setting(
    rows: *const u64,
    rows_len: usize,
    items: *const u64,
    items_len: usize,
    row: u64,
    message: *const u8,
    message_len: usize,
    path: *const u64,
    path_len: usize,
) -> Setting {
    let setting = unsafe {
        operations::read_setting(
            lent(rows, rows_len),
            lent(items, items_len),
            row,
            lent(message, message_len),
            lent(path, path_len),
        )
    };
    match setting {
        Ok(setting) => {
            let (what, word) = setting.words();
            Setting { number: 0, part: 0, place: 0, what, word }
        }
        Err(Reply { number, part, place, .. }) => Setting { number, part, place, what: 0, word: 0 },
    }
}

/// # Safety
/// As include/oer.h says: every pointer is valid for the length behind it.
#[unsafe(no_mangle)]
pub unsafe extern "C" fn oer_read_text(
    rows: *const u64,
    rows_len: usize,
    items: *const u64,
    items_len: usize,
    row: u64,
    message: *const u8,
    message_len: usize,
    path: *const u64,
    path_len: usize,
) -> Text {
    let text = unsafe {
        operations::read_text(
            lent(rows, rows_len),
            lent(items, items_len),
            row,
            lent(message, message_len),
            lent(path, path_len),
        )
    };
    let (start, length) = text.unwrap_or((0, 0));
    Text { found: text.is_some() as u64, start: start as u64, length: length as u64 }
}
