//! The C doors, as include/furzewrench.h declares them: a slice crosses as a pointer and a length.

/// Style, indent width, signature width, list width.
pub type Options = [u32; 4];

/// The refusal or 0, and the report's three numbers.
#[derive(Clone, Copy, Debug, PartialEq, Eq)]
pub struct Answer {
    pub refusal: u32,
    pub numbers: [u64; 3],
}

impl Answer {
    /// Of a layout: no refusal, and the plain mark.
    pub fn is_plain(&self) -> bool {
        self.refusal == 0 && self.numbers[2] == 1
    }
}

impl std::fmt::Display for Answer {
    fn fmt(&self, f: &mut std::fmt::Formatter) -> std::fmt::Result {
        let [first, second, third] = self.numbers;
        write!(f, "{} ({first} {second} {third})", self.refusal)
    }
}

pub fn success(first: u64, second: u64, third: u64) -> Answer {
    Answer { refusal: 0, numbers: [first, second, third] }
}

pub fn refuse(refusal: u32, place: usize) -> Answer {
    Answer { refusal, numbers: [place as u64, 0, 0] }
}

pub const REPORT_BYTES: usize = 24;

/// Layout; reports length, commas and plain.
pub fn layout(options: Options, rows: &[u8], text: &[u8], out: &mut [u8]) -> Answer {
    reported(|report| raw::layout(options, rows, text, out, report))
}

/// Layout behind a source's shebang line; reports the same.
pub fn layout_source(source: &[u8], rows: &[u8], text: &[u8], out: &mut [u8]) -> Answer {
    reported(|report| raw::layout_source(source, rows, text, out, report))
}

/// Reads a sheet; reports the rows, the text's bytes and 0.
pub fn read_sheet(sheet: &[u8], rows: &mut [u8], text: &mut [u8]) -> Answer {
    reported(|report| raw::read_sheet(sheet, rows, text, report))
}

/// Reads text back; reports the pieces, 0 and 0.
pub fn read_pieces(text: &[u8], pieces: &mut [u32]) -> Answer {
    reported(|report| raw::read_pieces(text, pieces, report))
}

/// Reports 1 where a space is needed, 0 and 0.
pub fn needs_space(first: u32, second: u32) -> Answer {
    reported(|report| raw::needs_space(first, second, report))
}

fn reported(door: impl FnOnce(&mut [u8]) -> u32) -> Answer {
    let mut report = [0xa5; REPORT_BYTES];
    let refusal = door(&mut report);
    let number = |i: usize| u64::from_le_bytes(report[8 * i..8 * i + 8].try_into().unwrap());
    Answer { refusal, numbers: [number(0), number(1), number(2)] }
}

/// The doors with their report as a lent slice of any length.
pub mod raw {
    use super::Options;

    extern "C" {
        fn rl_layout(
            style: u32,
            indent_width: u32,
            signature_width: u32,
            list_width: u32,
            rows: *const u8,
            rows_len: usize,
            text: *const u8,
            text_len: usize,
            out: *mut u8,
            out_len: usize,
            report: *mut u8,
            report_len: usize,
        ) -> u32;
        fn rl_layout_source(
            source: *const u8,
            source_len: usize,
            rows: *const u8,
            rows_len: usize,
            text: *const u8,
            text_len: usize,
            out: *mut u8,
            out_len: usize,
            report: *mut u8,
            report_len: usize,
        ) -> u32;
        fn rl_read_sheet(
            sheet: *const u8,
            sheet_len: usize,
            rows: *mut u8,
            rows_len: usize,
            text: *mut u8,
            text_len: usize,
            report: *mut u8,
            report_len: usize,
        ) -> u32;
        fn rl_read_pieces(
            text: *const u8,
            text_len: usize,
            pieces: *mut u32,
            pieces_len: usize,
            report: *mut u8,
            report_len: usize,
        ) -> u32;
        fn rl_needs_space(first: u32, second: u32, report: *mut u8, report_len: usize) -> u32;
    }

    pub fn layout(o: Options, rows: &[u8], text: &[u8], out: &mut [u8], report: &mut [u8]) -> u32 {
        // SAFETY: each pointer is valid for the length beside it, and the mutable slices overlap nothing.
        unsafe {
            rl_layout(
                o[0],
                o[1],
                o[2],
                o[3],
                rows.as_ptr(),
                rows.len(),
                text.as_ptr(),
                text.len(),
                out.as_mut_ptr(),
                out.len(),
                report.as_mut_ptr(),
                report.len(),
            )
        }
    }

    pub fn layout_source(source: &[u8], rows: &[u8], text: &[u8], out: &mut [u8], report: &mut [u8]) -> u32 {
        // SAFETY: as above.
        unsafe {
            rl_layout_source(
                source.as_ptr(),
                source.len(),
                rows.as_ptr(),
                rows.len(),
                text.as_ptr(),
                text.len(),
                out.as_mut_ptr(),
                out.len(),
                report.as_mut_ptr(),
                report.len(),
            )
        }
    }

    pub fn read_sheet(sheet: &[u8], rows: &mut [u8], text: &mut [u8], report: &mut [u8]) -> u32 {
        // SAFETY: as above.
        unsafe {
            rl_read_sheet(
                sheet.as_ptr(),
                sheet.len(),
                rows.as_mut_ptr(),
                rows.len(),
                text.as_mut_ptr(),
                text.len(),
                report.as_mut_ptr(),
                report.len(),
            )
        }
    }

    pub fn read_pieces(text: &[u8], pieces: &mut [u32], report: &mut [u8]) -> u32 {
        // SAFETY: as above.
        unsafe {
            rl_read_pieces(
                text.as_ptr(),
                text.len(),
                pieces.as_mut_ptr(),
                pieces.len(),
                report.as_mut_ptr(),
                report.len(),
            )
        }
    }

    pub fn needs_space(first: u32, second: u32, report: &mut [u8]) -> u32 {
        // SAFETY: as above.
        unsafe { rl_needs_space(first, second, report.as_mut_ptr(), report.len()) }
    }
}
