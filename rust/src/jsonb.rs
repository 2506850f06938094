//! MySQL's binary JSON, read in place: mysql_common's `Value` and its containers, as parts of a document that stays lent.
//!
//! A document begins at its type byte. In a row event four bytes with its length stand before that: leave them out.
use crate::calls;
use crate::refusal::{answered, Refusal};
use core::fmt;
use core::marker::PhantomData;

/// The column type of a decimal inside JSON: its bytes are for [`Decimal::read_packed`](crate::Decimal::read_packed).
pub const NEWDECIMAL: u8 = 246;

/// A value of a document.
#[derive(Debug, Clone, Copy)]
pub enum Value<'a> {
    Null,
    Bool(bool),
    I16(i16),
    U16(u16),
    I32(i32),
    U32(u32),
    I64(i64),
    U64(u64),
    F64(f64),
    String(JsonbString<'a>),
    SmallArray(ComplexValue<'a, Array>),
    LargeArray(ComplexValue<'a, Array>),
    SmallObject(ComplexValue<'a, Object>),
    LargeObject(ComplexValue<'a, Object>),
    Opaque(OpaqueValue<'a>),
}

/// The bytes of a string. Whether they are UTF-8 the walk asks, or `core::str::from_utf8`.
#[derive(Debug, Clone, Copy, PartialEq, Eq)]
pub struct JsonbString<'a>(&'a [u8]);

/// The bytes of a key. Whether they are UTF-8 the walk asks, or `core::str::from_utf8`.
#[derive(Debug, Clone, Copy, PartialEq, Eq)]
pub struct ObjectKey<'a>(&'a [u8]);

/// A value of a column type that JSON has not, as a decimal or a date.
#[derive(Debug, Clone, Copy, PartialEq, Eq)]
pub struct OpaqueValue<'a> {
    value_type: u8,
    data: &'a [u8],
}

/// Marks a [`ComplexValue`] as an array.
#[derive(Debug, Clone, Copy)]
pub enum Array {}

/// Marks a [`ComplexValue`] as an object.
#[derive(Debug, Clone, Copy)]
pub enum Object {}

/// An array or an object, small or large, with the document that it is in.
#[derive(Clone, Copy)]
pub struct ComplexValue<'a, U> {
    doc: &'a [u8],
    code: u32,
    start: u32,
    size: u32,
    count: u32,
    kind: PhantomData<U>,
}

/// Its four numbers, which [`Value::container`] takes; not the document, which may be long.
impl<U> fmt::Debug for ComplexValue<'_, U> {
    fn fmt(&self, f: &mut fmt::Formatter<'_>) -> fmt::Result {
        let ComplexValue { code, start, size, count, .. } = self;
        write!(f, "ComplexValue {{ code: {code}, start: {start}, size: {size}, count: {count} }}")
    }
}

impl<'a> JsonbString<'a> {
    pub fn str_raw(&self) -> &'a [u8] {
        self.0
    }
}

impl<'a> ObjectKey<'a> {
    pub fn value_raw(&self) -> &'a [u8] {
        self.0
    }
}

impl<'a> OpaqueValue<'a> {
    /// The number of the column type.
    pub fn value_type(&self) -> u8 {
        self.value_type
    }

    pub fn data_raw(&self) -> &'a [u8] {
        self.data
    }
}

/// Bytes that the archive answered as start and length. That they lie within the document is proved of it.
fn part(doc: &[u8], start: u32, len: u32) -> &[u8] {
    &doc[start as usize..][..len as usize]
}

impl<'a> Value<'a> {
    /// The root value: 1, 2, then what its content is refused with. The empty document is null, and bytes after the root do not matter.
    pub fn deserialize(doc: &'a [u8]) -> Result<Value<'a>, Refusal> {
        let mut row = [0; 5];
        answered(calls::root(doc, &mut row))?;
        // A root is there, or it is refused: 'nothing' is for positions alone.
        Ok(Value::of_row(doc, row).expect("a root"))
    }

    /// The array or object whose four numbers are known, as those of an event are: 1, and 13 where it is not in the document.
    pub fn container(doc: &'a [u8], code: u32, start: u32, size: u32, count: u32) -> Result<Value<'a>, Refusal> {
        answered(calls::element_count(doc, code, start, size, count, &mut [0]))?;
        Ok(Value::of_row(doc, [8, code, start, size, count]).expect("a container"))
    }

    /// The value of a row of five numbers, or nothing. The rows are told in include/bratthelm.h.
    fn of_row(doc: &'a [u8], [kind, code, a, b, c]: [u32; 5]) -> Option<Value<'a>> {
        let bits = u64::from(b) << 32 | u64::from(a);
        // The bits of a narrower number are the lower ones of the 64, signed ones too.
        Some(match (kind, code) {
            (0, _) => return None,
            (1, _) => Value::Null,
            (2, _) => Value::Bool(a != 0),
            (3, 5) => Value::I16(bits as i16),
            (3, 7) => Value::I32(bits as i32),
            (3, 9) => Value::I64(bits as i64),
            (4, 6) => Value::U16(bits as u16),
            (4, 8) => Value::U32(bits as u32),
            (4, 10) => Value::U64(bits),
            (5, _) => Value::F64(f64::from_bits(bits)),
            (6, _) => Value::String(JsonbString(part(doc, a, b))),
            (7, _) => Value::Opaque(OpaqueValue { value_type: c as u8, data: part(doc, a, b) }),
            (8, 0) => Value::SmallObject(ComplexValue::new(doc, code, a, b, c)),
            (8, 1) => Value::LargeObject(ComplexValue::new(doc, code, a, b, c)),
            (8, 2) => Value::SmallArray(ComplexValue::new(doc, code, a, b, c)),
            (8, 3) => Value::LargeArray(ComplexValue::new(doc, code, a, b, c)),
            // No other row is answered: the archive's promise.
            _ => unreachable!("no row has kind {kind} and code {code}"),
        })
    }

    pub fn is_array(&self) -> bool {
        matches!(self, Value::SmallArray(_) | Value::LargeArray(_))
    }

    pub fn is_object(&self) -> bool {
        matches!(self, Value::SmallObject(_) | Value::LargeObject(_))
    }

    /// Whether it is a signed number.
    pub fn is_int(&self) -> bool {
        matches!(self, Value::I16(_) | Value::I32(_) | Value::I64(_))
    }

    /// Whether it is an unsigned number.
    pub fn is_uint(&self) -> bool {
        matches!(self, Value::U16(_) | Value::U32(_) | Value::U64(_))
    }

    pub fn is_double(&self) -> bool {
        matches!(self, Value::F64(_))
    }

    /// How many elements or members an array or an object has.
    pub fn element_count(&self) -> Option<u32> {
        match self {
            Value::SmallArray(x) | Value::LargeArray(x) => Some(x.element_count()),
            Value::SmallObject(x) | Value::LargeObject(x) => Some(x.element_count()),
            _ => None,
        }
    }

    /// The number of an opaque value's column type.
    pub fn field_type(&self) -> Option<u8> {
        match self {
            Value::Opaque(x) => Some(x.value_type()),
            _ => None,
        }
    }

    /// Either kind of array.
    pub fn as_array(&self) -> Option<ComplexValue<'a, Array>> {
        match *self {
            Value::SmallArray(x) | Value::LargeArray(x) => Some(x),
            _ => None,
        }
    }

    /// Either kind of object.
    pub fn as_object(&self) -> Option<ComplexValue<'a, Object>> {
        match *self {
            Value::SmallObject(x) | Value::LargeObject(x) => Some(x),
            _ => None,
        }
    }
}

impl<'a, U> ComplexValue<'a, U> {
    fn new(doc: &'a [u8], code: u32, start: u32, size: u32, count: u32) -> Self {
        ComplexValue { doc, code, start, size, count, kind: PhantomData }
    }

    /// How many elements or members there are.
    pub fn element_count(&self) -> u32 {
        self.count
    }

    /// The element, or the member's value, at a position; `None` at or past the count: 2, 6, then what its content is refused with.
    pub fn elem_at(&self, pos: u32) -> Result<Option<Value<'a>>, Refusal> {
        let mut row = [0; 5];
        answered(calls::elem_at(self.doc, self.code, self.start, self.size, self.count, pos, &mut row))?;
        Ok(Value::of_row(self.doc, row))
    }
}

impl<'a> ComplexValue<'a, Array> {
    /// The elements by position. It goes on past one that is refused.
    pub fn iter(&self) -> ArrayIter<'a> {
        ArrayIter { array: *self, pos: 0 }
    }
}

impl<'a> ComplexValue<'a, Object> {
    /// The key at a position; `None` at or past the count: 5.
    pub fn key_at(&self, pos: u32) -> Result<Option<ObjectKey<'a>>, Refusal> {
        let mut row = [0; 3];
        answered(calls::key_at(self.doc, self.code, self.start, self.size, self.count, pos, &mut row))?;
        let [found, start, len] = row;
        Ok((found != 0).then(|| ObjectKey(part(self.doc, start, len))))
    }

    /// The keys by position. It goes on past one that is refused.
    pub fn keys(&self) -> ObjectKeys<'a> {
        ObjectKeys { object: *self, pos: 0 }
    }

    /// The members by position, duplicate keys too; the key's refusal comes before the value's. It goes on past one that is refused.
    pub fn iter(&self) -> ObjectIter<'a> {
        ObjectIter { object: *self, pos: 0 }
    }

    fn member_at(&self, pos: u32) -> Result<Option<(ObjectKey<'a>, Value<'a>)>, Refusal> {
        let key = self.key_at(pos)?;
        let value = self.elem_at(pos)?;
        Ok(key.zip(value))
    }
}

/// The elements of an array.
#[derive(Debug, Clone)]
pub struct ArrayIter<'a> {
    array: ComplexValue<'a, Array>,
    pos: u32,
}

/// The keys of an object.
#[derive(Debug, Clone)]
pub struct ObjectKeys<'a> {
    object: ComplexValue<'a, Object>,
    pos: u32,
}

/// The members of an object.
#[derive(Debug, Clone)]
pub struct ObjectIter<'a> {
    object: ComplexValue<'a, Object>,
    pos: u32,
}

/// The item at a place, and the place one further: it stays at nothing. What else would stay, 1 and 13, no container of this crate is answered.
fn step<T>(item: Result<Option<T>, Refusal>, pos: &mut u32) -> Option<Result<T, Refusal>> {
    let item = item.transpose()?;
    *pos += 1;
    Some(item)
}

impl<'a> Iterator for ArrayIter<'a> {
    type Item = Result<Value<'a>, Refusal>;

    fn next(&mut self) -> Option<Self::Item> {
        step(self.array.elem_at(self.pos), &mut self.pos)
    }
}

impl<'a> Iterator for ObjectKeys<'a> {
    type Item = Result<ObjectKey<'a>, Refusal>;

    fn next(&mut self) -> Option<Self::Item> {
        step(self.object.key_at(self.pos), &mut self.pos)
    }
}

impl<'a> Iterator for ObjectIter<'a> {
    type Item = Result<(ObjectKey<'a>, Value<'a>), Refusal>;

    fn next(&mut self) -> Option<Self::Item> {
        step(self.object.member_at(self.pos), &mut self.pos)
    }
}
