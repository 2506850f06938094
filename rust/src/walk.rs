//! The walk: every path of a document, in order, as events in a buffer that the caller lends.
use crate::calls;
use crate::refusal::{answered, Refusal};
use core::fmt;

/// How many numbers an event takes of the buffer.
pub const EVENT_LEN: usize = 9;

/// Bytes of the document, counted from its first.
#[derive(Debug, Clone, Copy, PartialEq, Eq, Default)]
pub struct Span {
    pub start: u32,
    pub len: u32,
}

impl Span {
    /// These bytes of the document, where it has them: that which was walked has them all.
    pub fn of(self, doc: &[u8]) -> Option<&[u8]> {
        doc.get(self.start as usize..)?.get(..self.len as usize)
    }
}

/// One path.
#[derive(Debug, Clone, Copy, PartialEq, Eq)]
pub struct Event {
    /// Type code: 0 small object, 1 large object, 2 small array, 3 large array, 4 literal, 5 Int16, 6 UInt16, 7 Int32, 8 UInt32, 9 Int64, 10 UInt64,
    /// 11 double, 12 string, 15 opaque.
    pub code: u32,
    /// How many positions the path has, and so how many steps by `parent` lead to the root.
    pub depth: u32,
    /// The last of them; 0 at the root.
    pub position: u32,
    /// A member's key; else 0 and 0.
    pub key: Span,
    /// The bytes of a string or an opaque value without their length field, of a number or a literal, or all of a container from its count on; 0 and 0 for the
    /// empty document.
    pub part: Span,
    /// A container's count, an opaque value's column type, else 0.
    pub extra: u32,
    /// The index of the event of its container, which stands before it: [`Walk::parent`] gives that event. 0 at the root, which has none.
    pub parent: u32,
}

impl Event {
    fn of(&[code, depth, position, key, key_len, part, part_len, extra, parent]: &[u32; EVENT_LEN]) -> Event {
        let key = Span { start: key, len: key_len };
        let part = Span { start: part, len: part_len };
        Event { code, depth, position, key, part, extra, parent }
    }
}

/// Where and why a walk stopped.
#[derive(Debug, Clone, Copy, PartialEq, Eq)]
pub struct Stopped {
    pub refusal: Refusal,
    /// Of [`Refusal::Utf8`] where the key or string breaks: at the first byte that does not go on with the character that is begun before it or, where
    /// none is begun, begins none. A text that ends inside a character breaks at its end: no byte is bad then, the one there is of something else,
    /// and the document may end there too, so `doc[place]` may panic. Whole characters end up to three bytes earlier, at what `from_utf8` calls
    /// `valid_up_to`.
    ///
    /// Of any other refusal the first byte of the key entry for a key's fault, else of the value entry; 0 at the root and for refusal 1.
    pub place: u32,
    /// How many events there are before it.
    pub count: u32,
}

/// `9: a key or a string is not UTF-8, at byte 17, after 1 events`.
impl fmt::Display for Stopped {
    fn fmt(&self, f: &mut fmt::Formatter<'_>) -> fmt::Result {
        write!(f, "{}, at byte {}, after {} events", self.refusal, self.place, self.count)
    }
}

impl core::error::Error for Stopped {}

/// Walks a document: 1 to 12. `events` has room for an event for each nine numbers, [`EVENT_LEN`]; those behind the last event stay as they were.
///
/// Many paths may lead to the same bytes, so a hostile document can fill any buffer: the length of `events` is what bounds the work. A walk takes
/// some 31,100 bytes of stack at most, whatever the document, as measured with the older kit.
pub fn walk<'e>(doc: &[u8], events: &'e mut [u32]) -> Walk<'e> {
    let mut row = [0; 2];
    let returned = calls::walk(doc, events, &mut row);
    let [count, place] = row;
    let end = answered(returned).map(|()| count).map_err(|refusal| Stopped { refusal, place, count });
    let all = &events[..count as usize * EVENT_LEN];
    Walk { all, left: all, end, told: end.is_ok() }
}

/// The events of a walk in order and, where it stopped, last of all why.
///
/// The walk is over when there is a `Walk`, so [`Walk::end`] can be asked first where nothing is to be done with a part of a document.
#[derive(Debug, Clone)]
#[must_use = "a walk may have stopped"]
pub struct Walk<'e> {
    all: &'e [u32],
    left: &'e [u32],
    end: Result<u32, Stopped>,
    told: bool,
}

impl Walk<'_> {
    /// How many events there are, of a document that was walked as a whole; or where and why the walk stopped.
    pub fn end(&self) -> Result<u32, Stopped> {
        self.end
    }

    /// The event of an index, counted from the root's 0, however many were taken already; `None` past the last.
    pub fn event(&self, index: u32) -> Option<Event> {
        self.all.get(index as usize * EVENT_LEN..)?.first_chunk().map(Event::of)
    }

    /// The event of the container of an event of this walk; `None` for the root. As many steps as its depth lead from an event to the root, also where
    /// the walk stopped later. Inside a loop over the events loop over a clone, since a loop takes its iterator.
    ///
    /// ```
    /// use bratthelm::{walk, EVENT_LEN};
    /// use std::iter::successors;
    ///
    /// # fn main() -> Result<(), Box<dyn std::error::Error>> {
    /// // an array of an empty array and of true inside two arrays
    /// let doc = b"\x02\x02\0\x1C\0\x02\x0A\0\x02\x0E\0\0\0\x04\0\x01\0\x0E\0\x02\x07\0\x01\0\x07\0\x04\x01\0";
    /// let mut events = [0; 64 * EVENT_LEN];
    /// let walk = walk(doc, &mut events);
    /// for event in walk.clone() {
    ///     let event = event?;
    ///     // from the event up to the root, each with its depth and its position
    ///     let climb: Vec<_> = successors(Some(event), |&event| walk.parent(event)).map(|event| (event.depth, event.position)).collect();
    ///     assert_eq!(climb.len(), event.depth as usize + 1);
    ///     if event.code == 4 {
    ///         assert_eq!(climb, [(3, 0), (2, 0), (1, 1), (0, 0)]);
    ///     }
    /// }
    /// # Ok(())
    /// # }
    /// ```
    pub fn parent(&self, event: Event) -> Option<Event> {
        if event.depth == 0 {
            return None;
        }
        self.event(event.parent)
    }
}

impl Iterator for Walk<'_> {
    type Item = Result<Event, Stopped>;

    fn next(&mut self) -> Option<Self::Item> {
        if let Some((numbers, left)) = self.left.split_first_chunk() {
            self.left = left;
            return Some(Ok(Event::of(numbers)));
        }
        if self.told {
            return None;
        }
        self.told = true;
        self.end.err().map(Err)
    }
}
