//! MySQL's binary JSON and packed decimals, read by proved code.
//!
//! Safe functions over the archive librelay.a, which `./archive` builds of proved crates; build.rs says how it is found. Nothing here allocates.
//! What is a type of mysql_common has its name there: [`Decimal`], [`Value`], `element_count`, `elem_at`, `key_at`, `read_packed` and so on. Bytes are lent as
//! slices, text and digit bytes are written to lent slices, and every error is a [`Refusal`] with its number.
//!
//! ```
//! use bratthelm::{walk, Decimal, Value, EVENT_LEN};
//!
//! # fn main() -> Result<(), Box<dyn std::error::Error>> {
//! let doc = [0x00, 0x01, 0x00, 0x11, 0x00, 0x0B, 0x00, 0x01, 0x00, 0x0C, 0x0C, 0x00, 0x61, 0x04, 0x5A, 0x6F, 0xC3, 0xAB];
//! for member in Value::deserialize(&doc)?.as_object().ok_or("no object")?.iter() {
//!     let (key, value) = member?;
//!     assert_eq!(key.value_raw(), b"a");
//!     assert!(matches!(value, Value::String(name) if name.str_raw() == "Zoë".as_bytes()));
//! }
//! let mut events = [0; 64 * EVENT_LEN];
//! for event in walk(&doc, &mut events) {
//!     let event = event?; // the refusal, where the walk stopped
//!     println!("{} {:?}", event.code, event.part.of(&doc));
//! }
//! let price = Decimal::read_packed(&[0x04, 0x02, 0x8C, 0x22], false)?;
//! assert_eq!(price.to_string(), "12.34");
//! assert!(price.compare(&Decimal::parse_str_bytes(b"100")?)?.is_lt());
//! # Ok(())
//! # }
//! ```
#![no_std]
#![deny(unsafe_code)]

pub mod calls;
pub mod decimal;
pub mod jsonb;
mod refusal;
mod walk;

pub use decimal::Decimal;
pub use jsonb::{ComplexValue, Value};
pub use refusal::Refusal;
pub use walk::{walk, Event, Span, Stopped, Walk, EVENT_LEN};
