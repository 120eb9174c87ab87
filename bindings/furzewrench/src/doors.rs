//! The five C doors as include/furzewrench.h declares them: a slice crosses as a pointer and its length.
//!
//! That header asks four things of a caller, and the slices of safe Rust have them: each pointer is valid for
//! its length; a pointer to 32-bit numbers is aligned, of an empty slice too; no slice that is lent for
//! change overlaps another; and a slice has less than 2 to the power of 63 bytes.
use crate::{Options, Refusal};

/// The report's three numbers, or the refusal.
pub type Answer = Result<[usize; 3], Refusal>;

pub fn layout(options: Options, rows: &[u8], text: &[u8], out: &mut [u8]) -> Answer {
    let Options { style, indent_width, signature_width, list_width } = options;
    reported(|report| {
        // SAFETY: each pointer is valid for its length; `out` and `report` overlap nothing.
        unsafe {
            rl_layout(
                style,
                indent_width,
                signature_width,
                list_width,
                rows.as_ptr(),
                rows.len(),
                text.as_ptr(),
                text.len(),
                out.as_mut_ptr(),
                out.len(),
                report.as_mut_ptr(),
                report.len(),
            )
        }
    })
}

pub fn layout_source(source: &[u8], rows: &[u8], text: &[u8], out: &mut [u8]) -> Answer {
    reported(|report| {
        // SAFETY: each pointer is valid for its length; `out` and `report` overlap nothing.
        unsafe {
            rl_layout_source(
                source.as_ptr(),
                source.len(),
                rows.as_ptr(),
                rows.len(),
                text.as_ptr(),
                text.len(),
                out.as_mut_ptr(),
                out.len(),
                report.as_mut_ptr(),
                report.len(),
            )
        }
    })
}

pub fn read_sheet(sheet: &[u8], rows: &mut [u8], text: &mut [u8]) -> Answer {
    reported(|report| {
        // SAFETY: each pointer is valid for its length; `rows`, `text` and `report` overlap nothing.
        unsafe {
            rl_read_sheet(
                sheet.as_ptr(),
                sheet.len(),
                rows.as_mut_ptr(),
                rows.len(),
                text.as_mut_ptr(),
                text.len(),
                report.as_mut_ptr(),
                report.len(),
            )
        }
    })
}

pub fn read_pieces(text: &[u8], pieces: &mut [u32]) -> Answer {
    reported(|report| {
        // SAFETY: each pointer is valid for its length, and `pieces` is aligned for 32 bits; `pieces` and
        // `report` overlap nothing.
        unsafe {
            rl_read_pieces(
                text.as_ptr(),
                text.len(),
                pieces.as_mut_ptr(),
                pieces.len(),
                report.as_mut_ptr(),
                report.len(),
            )
        }
    })
}

pub fn needs_space(first: u32, second: u32) -> Answer {
    reported(|report| {
        // SAFETY: `report` is valid for its length and overlaps nothing.
        unsafe { rl_needs_space(first, second, report.as_mut_ptr(), report.len()) }
    })
}

/// Calls a door with a report of 24 bytes and reads that: three little-endian eight-byte numbers.
fn reported(door: impl FnOnce(&mut [u8]) -> u32) -> Answer {
    let mut report = [[0; 8]; 3];
    let refusal = door(report.as_flattened_mut());
    // The doors are for x86-64, where a usize has the 64 bits.
    let numbers = report.map(|bytes| u64::from_le_bytes(bytes) as usize);
    match refusal {
        0 => Ok(numbers),
        number => Err(Refusal::new(number, numbers[0])),
    }
}

extern "C" {
    fn rl_layout(
        style: u32,
        indent_width: u32,
        signature_width: u32,
        list_width: u32,
        rows: *const u8,
        rows_len: usize,
        text: *const u8,
        text_len: usize,
        out: *mut u8,
        out_len: usize,
        report: *mut u8,
        report_len: usize,
    ) -> u32;

    fn rl_layout_source(
        source: *const u8,
        source_len: usize,
        rows: *const u8,
        rows_len: usize,
        text: *const u8,
        text_len: usize,
        out: *mut u8,
        out_len: usize,
        report: *mut u8,
        report_len: usize,
    ) -> u32;

    fn rl_read_sheet(
        sheet: *const u8,
        sheet_len: usize,
        rows: *mut u8,
        rows_len: usize,
        text: *mut u8,
        text_len: usize,
        report: *mut u8,
        report_len: usize,
    ) -> u32;

    fn rl_read_pieces(
        text: *const u8,
        text_len: usize,
        pieces: *mut u32,
        pieces_len: usize,
        report: *mut u8,
        report_len: usize,
    ) -> u32;

    fn rl_needs_space(first: u32, second: u32, report: *mut u8, report_len: usize) -> u32;
}

#[cfg(test)]
mod tests {
    use super::*;

    /// Refusal 11 is beyond the safe calls, whose report has 24 bytes.
    #[test]
    fn a_report_of_23_bytes_is_refused() {
        let answer = reported(|report| {
            let short = &mut report[..23];
            // SAFETY: as in `needs_space`.
            unsafe { rl_needs_space(22, 22, short.as_mut_ptr(), short.len()) }
        });
        assert_eq!(answer, Err(Refusal::Report));
    }
}
