//! Our code, called as C calls it, with lent memory that isn't zeros before.

use lekhyundo::sys;

const UNSET: u64 = 0xa5a5_a5a5_a5a5_a5a5;

/// Of a check: number, start, end, rows, tests.
pub type Checked = [u64; 5];

/// Of the writer: number, start, end, count.
pub type Written = [u64; 4];

/// The answer, and a table of so many numbers as it was left.
pub fn check(file: &[u8], size: usize) -> (Checked, Vec<u64>) {
    let mut table = vec![UNSET; size];
    let mut answer = [UNSET; 5];
    // SAFETY: each pointer is to that many elements, and the library keeps none.
    unsafe {
        sys::lekhyundo_table_check(
            file.as_ptr(),
            file.len(),
            table.as_mut_ptr(),
            table.len(),
            answer.as_mut_ptr(),
            answer.len(),
        )
    };
    (answer, table)
}

/// The answer, and a table of so many numbers and so many bytes as they were left.
pub fn write(source: &[u8], size: usize, bytes: usize) -> (Written, Vec<u64>, Vec<u8>) {
    let mut table = vec![UNSET; size];
    let mut out = vec![UNSET as u8; bytes];
    let mut answer = [UNSET; 4];
    // SAFETY: as above.
    unsafe {
        sys::lekhyundo_table_write(
            source.as_ptr(),
            source.len(),
            table.as_mut_ptr(),
            table.len(),
            out.as_mut_ptr(),
            out.len(),
            answer.as_mut_ptr(),
            answer.len(),
        )
    };
    (answer, table, out)
}
