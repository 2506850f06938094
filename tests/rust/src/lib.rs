//! The root of a crate that holds twelve files of mysql_common, unchanged. The original's own root brings in far more than they need; this
//! one names the modules that they are, and stands in for what they take from elsewhere.
#![allow(dead_code, unused_imports)]

#[macro_use]
mod flags;

pub mod binlog;
pub mod constants;
pub mod io;
pub mod misc;
pub mod proto;
pub mod value;

// Three crates that Debian lacks, or has too old. The files say `base64::`, `btoi::` and `saturating::`; each of these names is this crate itself,
// and what the files take from it stands below.
extern crate self as base64;
extern crate self as btoi;
extern crate self as saturating;

/// Stands in for base64's trait of that name: encoding alone. The original writes opaque values of a parsed document with it.
pub trait Engine {
    fn encode(&self, bytes: impl AsRef<[u8]>) -> String;
}

/// The usual alphabet, with padding.
pub struct Standard;

const ALPHABET: &[u8; 64] = b"ABCDEFGHIJKLMNOPQRSTUVWXYZabcdefghijklmnopqrstuvwxyz0123456789+/";

impl Engine for Standard {
    fn encode(&self, bytes: impl AsRef<[u8]>) -> String {
        let mut text = String::new();
        for three in bytes.as_ref().chunks(3) {
            let bits = three.iter().fold(0, |bits, &b| bits << 8 | b as usize) << (8 * (3 - three.len()));
            for i in 0..4 {
                text.push(if i <= three.len() { ALPHABET[bits >> (18 - 6 * i) & 63] as char } else { '=' });
            }
        }
        text
    }
}

/// What such a text encodes: ours, for reading the original's text back.
pub fn decode(text: &str) -> Vec<u8> {
    let mut bytes = Vec::new();
    for four in text.as_bytes().chunks(4) {
        let sixes: Vec<usize> = four.iter().filter_map(|c| ALPHABET.iter().position(|a| a == c)).collect();
        let bits = sixes.iter().fold(0, |bits, six| bits << 6 | six) << (6 * (4 - sixes.len()));
        bytes.extend((0..sixes.len().saturating_sub(1)).map(|i| (bits >> (16 - 8 * i)) as u8));
    }
    bytes
}

/// Stands in for base64's module of that name.
pub mod prelude {
    pub const BASE64_STANDARD: super::Standard = super::Standard;
}

/// Stands in for the crate btoi: a number in decimal digits. Only the reading of a server's version uses it.
pub fn btoi(text: &[u8]) -> Result<u8, std::num::ParseIntError> {
    String::from_utf8_lossy(text).parse()
}

/// Stands in for the crate saturating: a number that stops at its bounds. Only a writer with a limit uses it.
#[derive(Clone, Copy)]
pub struct Saturating<T>(pub T);

impl std::ops::SubAssign for Saturating<usize> {
    fn sub_assign(&mut self, other: Self) {
        self.0 = self.0.saturating_sub(other.0);
    }
}
