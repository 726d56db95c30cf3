//! The calls of `c/polygon.h`.

use reference::measure::MeasureName;

#[repr(C)]
#[derive(Clone, Copy)]
pub struct Point {
    pub col: u16,
    pub row: u16,
}

#[repr(C)]
#[derive(Clone, Copy)]
pub struct Written {
    pub bytes: usize,
    pub bits: usize,
}

#[repr(C)]
#[derive(Clone, Copy)]
pub struct Reading {
    pub kind: u16,
    pub bytes: usize,
    pub vertices: usize,
}

unsafe extern "C" {
    fn polygon_cheapest(
        chain: *const u8,
        chain_len: usize,
        kind: u16,
        pace: bool,
        top: u64,
        bottom: u64,
        buffer: *mut u8,
        buffer_len: usize,
        written: *mut Written,
    ) -> i32;

    fn polygon_closest(
        chain: *const u8,
        chain_len: usize,
        kind: u16,
        pace: bool,
        budget: u16,
        buffer: *mut u8,
        buffer_len: usize,
        written: *mut Written,
    ) -> i32;

    fn polygon_read(
        bytes: *const u8,
        len: usize,
        list: *mut Point,
        places: usize,
        reading: *mut Reading,
    ) -> i32;
}

pub fn cheapest(
    chain: &[u8],
    kind: u16,
    measure: MeasureName,
    (top, bottom): (u64, u64),
    buffer: &mut [u8],
    written: &mut Written,
) -> i32 {
    let pace = measure == MeasureName::Pace;
    // The pointers are those of slices and of a struct laid out as in C, and what is written is borrowed alone.
    unsafe {
        polygon_cheapest(
            chain.as_ptr(),
            chain.len(),
            kind,
            pace,
            top,
            bottom,
            buffer.as_mut_ptr(),
            buffer.len(),
            written,
        )
    }
}

pub fn closest(
    chain: &[u8],
    kind: u16,
    measure: MeasureName,
    budget: u16,
    buffer: &mut [u8],
    written: &mut Written,
) -> i32 {
    let pace = measure == MeasureName::Pace;
    // As above.
    unsafe {
        polygon_closest(
            chain.as_ptr(),
            chain.len(),
            kind,
            pace,
            budget,
            buffer.as_mut_ptr(),
            buffer.len(),
            written,
        )
    }
}

pub fn read(bytes: &[u8], list: &mut [Point], reading: &mut Reading) -> i32 {
    // As above.
    unsafe {
        polygon_read(
            bytes.as_ptr(),
            bytes.len(),
            list.as_mut_ptr(),
            list.len(),
            reading,
        )
    }
}
