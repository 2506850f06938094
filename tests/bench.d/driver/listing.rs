//! The walk over the original's own views: `key_at` and `elem_at` by position, `from_utf8` on keys and strings, and an event of nine numbers for each
//! path. The original has no such listing, so this one is ours, written to cost it as little as can be: nothing is allocated, and of the document's
//! bytes it reads by itself only what a view does not show, which is where a number or a container starts and how large a container is.

use std::str::from_utf8;

use mysql_common::{
    binlog::jsonb::{Array, ComplexValue, Object, StorageFormat, Value},
    io::ParseBuf,
};

const DEEPEST: u32 = 100;

/// How many numbers an event has.
pub const WIDE: usize = 9;

/// Any fault of a document.
#[derive(Debug)]
pub struct Refused;

fn sound<T, E>(found: Result<T, E>) -> Result<T, Refused> {
    found.map_err(|_| Refused)
}

/// How many events the document has; they stand at the front.
pub fn list(doc: &[u8], events: &mut [u32]) -> Result<usize, Refused> {
    let root: Value = sound(ParseBuf(doc).parse(()))?;
    let mut listing = Listing { doc, events, count: 0 };
    listing.value(&root, Path { depth: 0, pos: 0, key: (0, 0), parent: 0 }, Entry { at: 0, base: 1, width: 0 })?;
    Ok(listing.count)
}

/// Who a value is: its depth, its position, its key's start and length, and the index of its container's event, 0 for the root.
#[derive(Clone, Copy)]
struct Path {
    depth: u32,
    pos: u32,
    key: (u32, u32),
    parent: u32,
}

/// Where a value's entry is: its type byte, the first byte of the container, and the bytes of an offset. The root's type byte is like an entry
/// without an offset, before a container that starts at the next byte.
#[derive(Clone, Copy)]
struct Entry {
    at: usize,
    base: usize,
    width: usize,
}

struct Listing<'a> {
    doc: &'a [u8],
    events: &'a mut [u32],
    count: usize,
}

impl Listing<'_> {
    #[inline]
    fn put(&mut self, code: u32, path: Path, start: usize, length: usize, extra: u32) -> Result<(), Refused> {
        let event = self.events.get_mut(WIDE * self.count..WIDE * self.count + WIDE).ok_or(Refused)?;
        event.copy_from_slice(&[code, path.depth, path.pos, path.key.0, path.key.1, start as u32, length as u32, extra, path.parent]);
        self.count += 1;
        Ok(())
    }

    #[inline]
    fn number(&self, at: usize, width: usize) -> usize {
        match width {
            2 => u16::from_le_bytes([self.doc[at], self.doc[at + 1]]) as usize,
            4 => u32::from_le_bytes([self.doc[at], self.doc[at + 1], self.doc[at + 2], self.doc[at + 3]]) as usize,
            _ => 0,
        }
    }

    /// Where a value starts that stands at its entry's offset.
    #[inline]
    fn target(&self, entry: Entry) -> usize {
        entry.base + self.number(entry.at + 1, entry.width)
    }

    #[inline]
    fn start_of(&self, part: &[u8]) -> usize {
        part.as_ptr() as usize - self.doc.as_ptr() as usize
    }

    fn value(&mut self, value: &Value<'_>, path: Path, entry: Entry) -> Result<(), Refused> {
        match value {
            Value::Null | Value::Bool(_) => self.put(4, path, entry.at + 1, 1, 0),
            Value::I16(_) => self.put(5, path, entry.at + 1, 2, 0),
            Value::U16(_) => self.put(6, path, entry.at + 1, 2, 0),
            Value::I32(_) => self.put(7, path, self.four(entry), 4, 0),
            Value::U32(_) => self.put(8, path, self.four(entry), 4, 0),
            Value::I64(_) => self.put(9, path, self.target(entry), 8, 0),
            Value::U64(_) => self.put(10, path, self.target(entry), 8, 0),
            Value::F64(_) => self.put(11, path, self.target(entry), 8, 0),
            Value::String(text) => {
                let text = text.str_raw();
                sound(from_utf8(text))?;
                self.put(12, path, self.start_of(text), text.len(), 0)
            }
            Value::Opaque(part) => {
                let bytes = part.data_raw();
                self.put(15, path, self.start_of(bytes), bytes.len(), part.value_type() as u32)
            }
            Value::SmallObject(view) => self.members(view, 0, path, self.target(entry)),
            Value::LargeObject(view) => self.members(view, 1, path, self.target(entry)),
            Value::SmallArray(view) => self.elements(view, 2, path, self.target(entry)),
            Value::LargeArray(view) => self.elements(view, 3, path, self.target(entry)),
        }
    }

    /// Where a number of four bytes starts: in the entry of a large container.
    #[inline]
    fn four(&self, entry: Entry) -> usize {
        if entry.width == 4 { entry.at + 1 } else { self.target(entry) }
    }

    fn members<T: StorageFormat>(&mut self, view: &ComplexValue<'_, T, Object>, code: u32, path: Path, base: usize) -> Result<(), Refused> {
        let (width, count) = (T::OFFSET_SIZE as usize, view.element_count());
        let parent = self.count as u32;
        self.put(code, path, base, self.number(base + width, width), count)?;
        if count > 0 && path.depth == DEEPEST {
            return Err(Refused);
        }
        let values = base + 2 * width + count as usize * T::KEY_ENTRY_SIZE as usize;
        for pos in 0..count {
            let key = sound(view.key_at(pos))?.ok_or(Refused)?;
            let bytes = key.value_raw();
            sound(from_utf8(bytes))?;
            let value = sound(view.elem_at(pos))?.ok_or(Refused)?;
            let path = Path { depth: path.depth + 1, pos, key: (self.start_of(bytes) as u32, bytes.len() as u32), parent };
            self.value(&value, path, Entry { at: values + pos as usize * T::VALUE_ENTRY_SIZE as usize, base, width })?;
        }
        Ok(())
    }

    fn elements<T: StorageFormat>(&mut self, view: &ComplexValue<'_, T, Array>, code: u32, path: Path, base: usize) -> Result<(), Refused> {
        let (width, count) = (T::OFFSET_SIZE as usize, view.element_count());
        let parent = self.count as u32;
        self.put(code, path, base, self.number(base + width, width), count)?;
        if count > 0 && path.depth == DEEPEST {
            return Err(Refused);
        }
        let values = base + 2 * width;
        for pos in 0..count {
            let value = sound(view.elem_at(pos))?.ok_or(Refused)?;
            let path = Path { depth: path.depth + 1, pos, key: (0, 0), parent };
            self.value(&value, path, Entry { at: values + pos as usize * T::VALUE_ENTRY_SIZE as usize, base, width })?;
        }
        Ok(())
    }
}
