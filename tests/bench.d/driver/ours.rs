//! Our functions, from the archive that `./archive` builds, as include/bratthelm.h declares them. Only what is measured here.

#[link(name = "relay", kind = "static")]
unsafe extern "C" {
    fn bratthelm_walk(doc: *const u8, doc_len: usize, events: *mut u32, events_len: usize, answer: *mut u32, answer_len: usize) -> u32;
    fn bratthelm_decimal_read_packed(bytes: *const u8, bytes_len: usize, keep: u32, answer: *mut u32, answer_len: usize) -> u32;
    fn bratthelm_decimal_parse(text: *const u8, text_len: usize, answer: *mut u32, answer_len: usize) -> u32;
    fn bratthelm_decimal_write_bin(
        decimal: *const u32,
        decimal_len: usize,
        bytes: *mut u8,
        bytes_len: usize,
        answer: *mut u32,
        answer_len: usize,
    ) -> u32;
    fn bratthelm_decimal_print(decimal: *const u32, decimal_len: usize, text: *mut u8, text_len: usize, answer: *mut u32, answer_len: usize) -> u32;
    fn bratthelm_decimal_compare(left: *const u32, left_len: usize, right: *const u32, right_len: usize, answer: *mut u32, answer_len: usize) -> u32;
}

/// A decimal's row.
pub type Row = [u32; 12];

fn done(number: u32) -> Result<(), u32> {
    if number == 0 { Ok(()) } else { Err(number) }
}

/// The answer, or the number of the refusal.
fn answer<const N: usize>(ask: impl FnOnce(*mut u32, usize) -> u32) -> Result<[u32; N], u32> {
    let mut answer = [0; N];
    done(ask(answer.as_mut_ptr(), N))?;
    Ok(answer)
}

// SAFETY, for all that follow: each pointer and length is of one slice, which lives through the call; what is written to is borrowed alone.

/// How many events the document has; they stand at the front.
pub fn walk(doc: &[u8], events: &mut [u32]) -> Result<usize, u32> {
    let [count, _] = answer(|row, len| unsafe { bratthelm_walk(doc.as_ptr(), doc.len(), events.as_mut_ptr(), events.len(), row, len) })?;
    Ok(count as usize)
}

pub fn read_packed(bytes: &[u8], row: &mut Row) -> Result<(), u32> {
    done(unsafe { bratthelm_decimal_read_packed(bytes.as_ptr(), bytes.len(), 0, row.as_mut_ptr(), row.len()) })
}

pub fn parse(text: &[u8], row: &mut Row) -> Result<(), u32> {
    done(unsafe { bratthelm_decimal_parse(text.as_ptr(), text.len(), row.as_mut_ptr(), row.len()) })
}

/// How many bytes the decimal takes; they stand at the front.
pub fn write_bin(decimal: &Row, bytes: &mut [u8]) -> Result<usize, u32> {
    let [count] =
        answer(|row, len| unsafe { bratthelm_decimal_write_bin(decimal.as_ptr(), decimal.len(), bytes.as_mut_ptr(), bytes.len(), row, len) })?;
    Ok(count as usize)
}

/// How many characters the decimal has; they stand at the front.
pub fn print(decimal: &Row, text: &mut [u8]) -> Result<usize, u32> {
    let [count] = answer(|row, len| unsafe { bratthelm_decimal_print(decimal.as_ptr(), decimal.len(), text.as_mut_ptr(), text.len(), row, len) })?;
    Ok(count as usize)
}

/// 0 less, 1 equal, 2 greater.
pub fn compare(left: &Row, right: &Row) -> Result<u32, u32> {
    let [order] = answer(|row, len| unsafe { bratthelm_decimal_compare(left.as_ptr(), left.len(), right.as_ptr(), right.len(), row, len) })?;
    Ok(order)
}
