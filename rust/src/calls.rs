//! The functions of include/bratthelm.h over slices. Each returns a refusal's number, or 0, and stores its row of numbers at the front of `answer`; the
//! header says what the rows are. All that is `unsafe` in this crate is here.
//!
//! Why each call is sound. The header asks two things of its caller. A pointer that is not null and is valid for as many items as the length after
//! it says: both come from one slice, which is never null, not even where it is empty, and whose items are all initialised. And that what is written to
//! overlaps nothing else that is lent, and that no other thread touches it: it comes from a `&mut` slice that is borrowed for the call. Any bytes,
//! numbers and lengths have their answer, no pointer is kept, and nothing unwinds, so nothing is left for a caller of these to see to.
#![allow(unsafe_code)]

mod archive {
    extern "C" {
        pub fn bratthelm_root(doc: *const u8, doc_len: usize, answer: *mut u32, answer_len: usize) -> u32;
        pub fn bratthelm_elem_at(
            doc: *const u8,
            doc_len: usize,
            code: u32,
            start: u32,
            size: u32,
            count: u32,
            pos: u32,
            answer: *mut u32,
            answer_len: usize,
        ) -> u32;
        pub fn bratthelm_key_at(
            doc: *const u8,
            doc_len: usize,
            code: u32,
            start: u32,
            size: u32,
            count: u32,
            pos: u32,
            answer: *mut u32,
            answer_len: usize,
        ) -> u32;
        pub fn bratthelm_element_count(
            doc: *const u8,
            doc_len: usize,
            code: u32,
            start: u32,
            size: u32,
            count: u32,
            answer: *mut u32,
            answer_len: usize,
        ) -> u32;
        pub fn bratthelm_walk(doc: *const u8, doc_len: usize, events: *mut u32, events_len: usize, answer: *mut u32, answer_len: usize) -> u32;
        pub fn bratthelm_decimal_read_bin(
            bytes: *const u8,
            bytes_len: usize,
            precision: u32,
            scale: u32,
            keep: u32,
            answer: *mut u32,
            answer_len: usize,
        ) -> u32;
        pub fn bratthelm_decimal_read_packed(bytes: *const u8, bytes_len: usize, keep: u32, answer: *mut u32, answer_len: usize) -> u32;
        pub fn bratthelm_decimal_parse(text: *const u8, text_len: usize, answer: *mut u32, answer_len: usize) -> u32;
        pub fn bratthelm_decimal_write_bin(
            decimal: *const u32,
            decimal_len: usize,
            bytes: *mut u8,
            bytes_len: usize,
            answer: *mut u32,
            answer_len: usize,
        ) -> u32;
        pub fn bratthelm_decimal_print(
            decimal: *const u32,
            decimal_len: usize,
            text: *mut u8,
            text_len: usize,
            answer: *mut u32,
            answer_len: usize,
        ) -> u32;
        pub fn bratthelm_decimal_compare(
            left: *const u32,
            left_len: usize,
            right: *const u32,
            right_len: usize,
            answer: *mut u32,
            answer_len: usize,
        ) -> u32;
    }
}

/// The root value: a row of a value.
pub fn root(doc: &[u8], answer: &mut [u32]) -> u32 {
    // SAFETY: `doc` is read and `answer` written within their lengths; the one is shared and the other exclusive, so they do not overlap.
    unsafe { archive::bratthelm_root(doc.as_ptr(), doc.len(), answer.as_mut_ptr(), answer.len()) }
}

/// The value at a position of a container: a row of a value.
pub fn elem_at(doc: &[u8], code: u32, start: u32, size: u32, count: u32, pos: u32, answer: &mut [u32]) -> u32 {
    // SAFETY: as in `root`; the numbers may be any.
    unsafe { archive::bratthelm_elem_at(doc.as_ptr(), doc.len(), code, start, size, count, pos, answer.as_mut_ptr(), answer.len()) }
}

/// The key at a position of an object: a row of a key.
pub fn key_at(doc: &[u8], code: u32, start: u32, size: u32, count: u32, pos: u32, answer: &mut [u32]) -> u32 {
    // SAFETY: as in `root`; the numbers may be any.
    unsafe { archive::bratthelm_key_at(doc.as_ptr(), doc.len(), code, start, size, count, pos, answer.as_mut_ptr(), answer.len()) }
}

/// How many elements or members a container has: one number.
pub fn element_count(doc: &[u8], code: u32, start: u32, size: u32, count: u32, answer: &mut [u32]) -> u32 {
    // SAFETY: as in `root`; the numbers may be any.
    unsafe { archive::bratthelm_element_count(doc.as_ptr(), doc.len(), code, start, size, count, answer.as_mut_ptr(), answer.len()) }
}

/// Every path of the document as events of nine numbers; the row is the count of events and the place of the fault.
pub fn walk(doc: &[u8], events: &mut [u32], answer: &mut [u32]) -> u32 {
    // SAFETY: as in `root`; `events` and `answer` are two exclusive slices, so they do not overlap either.
    unsafe { archive::bratthelm_walk(doc.as_ptr(), doc.len(), events.as_mut_ptr(), events.len(), answer.as_mut_ptr(), answer.len()) }
}

/// The decimal in digit bytes of a precision and a scale: a row of a decimal.
pub fn decimal_read_bin(bytes: &[u8], precision: u32, scale: u32, keep: u32, answer: &mut [u32]) -> u32 {
    // SAFETY: as in `root`; the numbers may be any.
    unsafe { archive::bratthelm_decimal_read_bin(bytes.as_ptr(), bytes.len(), precision, scale, keep, answer.as_mut_ptr(), answer.len()) }
}

/// The decimal after a precision byte and a scale byte: a row of a decimal.
pub fn decimal_read_packed(bytes: &[u8], keep: u32, answer: &mut [u32]) -> u32 {
    // SAFETY: as in `root`; the number may be any.
    unsafe { archive::bratthelm_decimal_read_packed(bytes.as_ptr(), bytes.len(), keep, answer.as_mut_ptr(), answer.len()) }
}

/// The decimal that a text writes: a row of a decimal.
pub fn decimal_parse(text: &[u8], answer: &mut [u32]) -> u32 {
    // SAFETY: as in `root`.
    unsafe { archive::bratthelm_decimal_parse(text.as_ptr(), text.len(), answer.as_mut_ptr(), answer.len()) }
}

/// Writes a decimal's digit bytes to the front of `bytes`: one number, how many they are.
pub fn decimal_write_bin(decimal: &[u32], bytes: &mut [u8], answer: &mut [u32]) -> u32 {
    // SAFETY: as in `walk`; the numbers of `decimal` may be any and as many or few as they are.
    unsafe {
        archive::bratthelm_decimal_write_bin(decimal.as_ptr(), decimal.len(), bytes.as_mut_ptr(), bytes.len(), answer.as_mut_ptr(), answer.len())
    }
}

/// Prints a decimal to the front of `text`: one number, how many characters it has.
pub fn decimal_print(decimal: &[u32], text: &mut [u8], answer: &mut [u32]) -> u32 {
    // SAFETY: as in `decimal_write_bin`.
    unsafe { archive::bratthelm_decimal_print(decimal.as_ptr(), decimal.len(), text.as_mut_ptr(), text.len(), answer.as_mut_ptr(), answer.len()) }
}

/// The order of two decimals by value: one number, 0 less, 1 equal, 2 greater.
pub fn decimal_compare(left: &[u32], right: &[u32], answer: &mut [u32]) -> u32 {
    // SAFETY: as in `root`; `left` and `right` are only read, so that they may be the same.
    unsafe { archive::bratthelm_decimal_compare(left.as_ptr(), left.len(), right.as_ptr(), right.len(), answer.as_mut_ptr(), answer.len()) }
}
