//! MySQL's packed decimals: mysql_common's `Decimal`, in twelve numbers and without a heap.
use crate::calls;
use crate::refusal::{answered, Refusal};
use core::cmp::Ordering;
use core::fmt;

/// How many numbers a decimal is.
pub const NUMBERS: usize = 12;
/// How many bytes are enough for any decimal's text.
pub const TEXT_MAX: usize = 67;
/// How many bytes are enough for any decimal's digit bytes.
pub const BYTES_MAX: usize = 36;

/// A decimal of at most 65 digits, at most 30 of them after the point.
///
/// It is well formed from the start, so [`Refusal::Record`] is for [`Decimal::from_numbers`] alone. There is no `==` and no `Ord`, since those of
/// mysql_common go by the bytes, where 9 is above 100: [`Decimal::compare`] goes by the value.
#[derive(Debug, Clone, Copy)]
pub struct Decimal {
    numbers: [u32; NUMBERS],
}

/// A number for the archive: what does not fit is refused like the largest that does.
fn narrow(n: usize) -> u32 {
    u32::try_from(n).unwrap_or(u32::MAX)
}

impl Decimal {
    /// The decimal in the digit bytes at the front, as in a row event: 20, 21, 22. Later bytes are not read.
    ///
    /// With `keep_precision` it has the digits of the precision, so that [`Decimal::write_bin`] gives the bytes back (of a precision of 1 or more), except for a negative zero: a zero is
    /// positive, so `7F FF` of (2,1) comes back as `80 00`. To show it, read it with `false`.
    pub fn read_bin(bytes: &[u8], precision: usize, scale: usize, keep_precision: bool) -> Result<Decimal, Refusal> {
        let mut numbers = [0; NUMBERS];
        answered(calls::decimal_read_bin(bytes, narrow(precision), narrow(scale), keep_precision.into(), &mut numbers))?;
        Ok(Decimal { numbers })
    }

    /// The same after a precision byte and a scale byte, as inside JSON: 21 where one of these is missing, 20, 21, 22.
    pub fn read_packed(bytes: &[u8], keep_precision: bool) -> Result<Decimal, Refusal> {
        let mut numbers = [0; NUMBERS];
        answered(calls::decimal_read_packed(bytes, keep_precision.into(), &mut numbers))?;
        Ok(Decimal { numbers })
    }

    /// The decimal that a text writes, without spaces: 23, 24.
    pub fn parse_str_bytes(text: &[u8]) -> Result<Decimal, Refusal> {
        let mut numbers = [0; NUMBERS];
        answered(calls::decimal_parse(text, &mut numbers))?;
        Ok(Decimal { numbers })
    }

    /// The decimal of twelve numbers, as [`Decimal::numbers`] gives them: 26, also for a sign on zero. Any sign but 0 is a minus.
    pub fn from_numbers(mut numbers: [u32; NUMBERS]) -> Result<Decimal, Refusal> {
        // Whatever can be compared, with itself too, is a decimal.
        answered(calls::decimal_compare(&numbers, &numbers, &mut [0]))?;
        numbers[2] = (numbers[2] != 0).into();
        Ok(Decimal { numbers })
    }

    /// How many digits stand before the point and after it, sign (0, or 1 for a minus; 0 where all groups are) and nine groups of digits, cut in nines from the
    /// point outwards.
    pub fn numbers(&self) -> [u32; NUMBERS] {
        self.numbers
    }

    /// Writes the digit bytes to the front of `out` and counts them: 25. [`BYTES_MAX`] are enough for any.
    pub fn write_bin(&self, out: &mut [u8]) -> Result<usize, Refusal> {
        let mut count = [0];
        answered(calls::decimal_write_bin(&self.numbers, out, &mut count))?;
        Ok(count[0] as usize)
    }

    /// How many digit bytes there are.
    pub fn bin_size(&self) -> Result<usize, Refusal> {
        self.write_bin(&mut [0; BYTES_MAX])
    }

    /// Prints it to the front of `out` and counts the characters: 25. [`TEXT_MAX`] are enough for any.
    pub fn print(&self, out: &mut [u8]) -> Result<usize, Refusal> {
        let mut count = [0];
        answered(calls::decimal_print(&self.numbers, out, &mut count))?;
        Ok(count[0] as usize)
    }

    /// The order by value: 1 is 1.0, and 9 is less than 100. It is `Ok` for all decimals.
    ///
    /// Of the values it is a total order, which is proved of the comparison whose answer the archive passes on (crates/order_laws), so marks may be sorted by it:
    /// `marks.sort_by(|a, b| a.compare(b).expect("decimals"))`. Equal are those that print the same once zeros at the front of the integral part and at the end
    /// of the fraction, and then a last point, are removed.
    pub fn compare(&self, other: &Decimal) -> Result<Ordering, Refusal> {
        let mut order = [0];
        answered(calls::decimal_compare(&self.numbers, &other.numbers, &mut order))?;
        Ok(order[0].cmp(&1))
    }
}

/// The text of [`Decimal::print`]. A width is met as for whole numbers; a precision is not, since it would leave digits out.
impl fmt::Display for Decimal {
    fn fmt(&self, f: &mut fmt::Formatter<'_>) -> fmt::Result {
        let mut text = [0; TEXT_MAX];
        let count = self.print(&mut text).map_err(|_| fmt::Error)?;
        let text = core::str::from_utf8(&text[..count]).map_err(|_| fmt::Error)?;
        match text.strip_prefix('-') {
            Some(digits) => f.pad_integral(false, "", digits),
            None => f.pad_integral(true, "", text),
        }
    }
}
