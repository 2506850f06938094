//! The answer to one request, from the original.
//!
//! What the original can be asked, and how:
//!
//! * `v`, `o`, `j`: the whole of each. `j DOC` is a request of this program alone: `Value::parse` of the root, as text (see `dom_text`).
//! * `e`, `k`, `n`, `ie`, `im`, `ik`: the original makes a view from bytes and from nothing else. So the view of KIND at START is the one that it
//!   makes of the document's bytes from START on. Where it makes none, or one of another count or size, and where it has no such function for the
//!   kind (keys and members of an array, iteration over an object's elements), the answer is `none`; the port refuses all of these by 13.
//! * `w`: the original has no listing. The walk below is ours, over the original's `key_at` and `elem_at`. ROOM, the depth of 100 and the UTF-8 of
//!   keys are the walk's alone: the original has no room and no depth, and takes such keys.
//! * `r`, `p`, `t`, `c`, `s`: the whole of each; `c` is the original's own order, which compares written bytes.
//! * `u`: the standard library's `from_utf8`, which the original calls. Its error has no place of a byte: that is `valid_up_to` where the byte
//!   there begins no character, else `error_len` bytes past it, and the end where there is no `error_len`.
//! * `x`, `y`: `none`. The original's decimals come from bytes or text, never from numbers of digits and groups.
//! * `d`: the two lines of the original's `parse` that make a number of the first eight bytes stand here, and then its own function for the type is
//!   asked; a TIMESTAMP is a DATETIME there. `q`: the root, and of an opaque value of one of the four types the original's own `parse` of it.
//!   Its `time_type` must be the function's, and its `time_zone_displacement` 0, or the answer is `lost`; the port has neither.
//! * `z`: `none`. The original has no writer of dates and times.
//!
//! A view's own start and size are private, and a number has no address. Where a container or number starts is read from its entry here; then
//! the original reads that place once more, and unless it finds an equal value the answer is `lost`. Keys, strings and opaque values are slices of
//! the document: their starts are their addresses.
//!
//! An error of the original's is `refused`, wherever it comes up.

use std::{collections::HashMap, fmt::Write, io, str::from_utf8};

use mysql_common::{
    binlog::{
        decimal::{Decimal, decimal_bin_size},
        jsonb::{JsonContainer, JsonDom, JsonNumber, JsonScalar, Value},
        time::{MysqlTime, MysqlTimestampType},
    },
    constants::ColumnType,
    decode,
    io::ParseBuf,
};

/// An answer that is one word and the whole line.
type Word = &'static str;
const WHAT: Word = "what";
const NONE: Word = "none";
const REFUSED: Word = "refused";
const LOST: Word = "lost";

const MOST_ITEMS: usize = 1024;
const MOST_ROOM: u32 = 1820;
const MOST_OUTPUT: u32 = 128;
const DEEPEST: u32 = 100;

pub fn answer(line: &[u8]) -> String {
    let words: Vec<&[u8]> = line.split(|&b| b == b' ').collect();
    asked(words[0], &words[1..]).unwrap_or_else(String::from)
}

fn asked(name: &[u8], words: &[&[u8]]) -> Result<String, Word> {
    match (name, words) {
        (b"v", [doc]) => value(&bytes(doc)?),
        (b"w", [room, doc]) => {
            let room = number(room)?;
            if room > MOST_ROOM {
                return Err(WHAT);
            }
            listing(&bytes(doc)?, room as usize)
        }
        (b"j", [doc]) => dom(&bytes(doc)?),
        (b"o", [keep, doc]) => opaque_decimal(flag(keep)?, &bytes(doc)?),
        (b"n", [kind, start, count, size, doc]) => {
            let named = Container::named(kind, start, count, size)?;
            let doc = bytes(doc)?;
            Ok(count_of(&named.view(&doc)?).to_string())
        }
        (b"e", [kind, start, count, size, pos, doc]) => {
            let named = Container::named(kind, start, count, size)?;
            element(named, number(pos)?, &bytes(doc)?)
        }
        (b"k", [kind, start, count, size, pos, doc]) => {
            let named = Container::named(kind, start, count, size)?;
            key(named, number(pos)?, &bytes(doc)?)
        }
        (b"ie", [kind, start, count, size, doc]) => elements(Container::named(kind, start, count, size)?, &bytes(doc)?),
        (b"im", [kind, start, count, size, doc]) => members(Container::named(kind, start, count, size)?, &bytes(doc)?),
        (b"ik", [kind, start, count, size, doc]) => keys(Container::named(kind, start, count, size)?, &bytes(doc)?),
        (b"r", [precision, scale, keep, digits]) => {
            let (precision, scale, keep) = (number(precision)?, number(scale)?, flag(keep)?);
            decimal(Decimal::read_bin(&bytes(digits)?[..], precision as usize, scale as usize, keep).or(Err(REFUSED))?)
        }
        (b"p", [keep, packed]) => {
            let keep = flag(keep)?;
            decimal(Decimal::read_packed(&bytes(packed)?[..], keep).or(Err(REFUSED))?)
        }
        (b"t", [text]) => decimal(Decimal::parse_str_bytes(&bytes(text)?).or(Err(REFUSED))?),
        (b"c", [left, right]) => {
            let (left, right) = (bytes(left)?, bytes(right)?);
            let left = Decimal::read_packed(&left[..], true).or(Err(REFUSED))?;
            let right = Decimal::read_packed(&right[..], true).or(Err(REFUSED))?;
            Ok(format!("{:?}", left.cmp(&right)).to_lowercase())
        }
        (b"s", [precision, scale]) => Ok(decimal_bin_size(number(precision)? as usize, number(scale)? as usize).to_string()),
        (b"u", [text]) => Ok(text_of(&bytes(text)?)),
        (b"x", [record @ .., room]) => {
            is_record(record)?;
            Err(if number(room)? <= MOST_OUTPUT { NONE } else { WHAT })
        }
        (b"y", records) if records.len() == 24 => {
            is_record(&records[..12])?;
            is_record(&records[12..])?;
            Err(NONE)
        }
        (b"d", [kind, packed]) => {
            let kind = TimeType::numbered(kind)?;
            packed_time(kind, &bytes(packed)?)
        }
        (b"q", [doc]) => opaque_time(&bytes(doc)?),
        (b"z", [kind, fields @ .., sign, room]) if fields.len() == 7 => {
            TimeType::numbered(kind)?;
            fields.iter().try_for_each(|word| number(word).map(drop))?;
            flag(sign)?;
            Err(if number(room)? <= MOST_OUTPUT { NONE } else { WHAT })
        }
        _ => Err(WHAT),
    }
}

// Words.

fn number(word: &[u8]) -> Result<u32, Word> {
    if word.is_empty() || !word.iter().all(u8::is_ascii_digit) {
        return Err(WHAT);
    }
    word.iter().try_fold(0u32, |n, b| n.checked_mul(10)?.checked_add((b - b'0') as u32)).ok_or(WHAT)
}

fn flag(word: &[u8]) -> Result<bool, Word> {
    match number(word)? {
        0 => Ok(false),
        1 => Ok(true),
        _ => Err(WHAT),
    }
}

fn bytes(word: &[u8]) -> Result<Vec<u8>, Word> {
    if word == b"-" {
        return Ok(Vec::new());
    }
    if word.is_empty() || word.len() % 2 == 1 {
        return Err(WHAT);
    }
    let digit = |b: u8| (b as char).to_digit(16);
    word.chunks(2).map(|two| Some((digit(two[0])? * 16 + digit(two[1])?) as u8)).collect::<Option<_>>().ok_or(WHAT)
}

/// What `from_utf8` says of a text. Its error begins with a character, whose first bytes may still be right.
fn text_of(text: &[u8]) -> String {
    let Err(fault) = from_utf8(text) else {
        return String::from("utf8");
    };
    let begun = fault.valid_up_to();
    let place = match fault.error_len() {
        None => text.len(),
        Some(length) if matches!(text[begun], 0xc2..=0xf4) => begun + length,
        Some(_) => begun,
    };
    format!("bad {place}")
}

fn is_record(words: &[&[u8]]) -> Result<(), Word> {
    if words.len() != 12 {
        return Err(WHAT);
    }
    flag(words[2])?;
    words.iter().try_for_each(|word| number(word).map(drop))
}

fn hex(bytes: &[u8]) -> String {
    let mut text = String::with_capacity(2 * bytes.len());
    for b in bytes {
        for digit in [b >> 4, b & 15] {
            text.push(char::from_digit(digit as u32, 16).unwrap());
        }
    }
    text
}

// Decimals.

fn decimal(decimal: Decimal) -> Result<String, Word> {
    // The counts of digits and the sign are private, but the original shows them to a debugger.
    let shown = format!("{decimal:?}");
    let field = |name: &str| {
        let (_, rest) = shown.split_once(name).ok_or(LOST)?;
        rest.split_once(',').map(|(field, _)| field).ok_or(LOST)
    };
    let (intg, frac) = (field("intg: ")?, field("frac: ")?);
    let sign = if field("sign: ")? == "true" { '-' } else { '+' };
    let mut written = Vec::new();
    decimal.write_bin(&mut written).or(Err(REFUSED))?;
    let written = if written.is_empty() { String::from("-") } else { hex(&written) };
    Ok(format!("{intg} {frac} {sign} {decimal} {written}"))
}

fn opaque_decimal(keep: bool, doc: &[u8]) -> Result<String, Word> {
    match root(doc)? {
        Value::Opaque(part) if part.value_type() == ColumnType::MYSQL_TYPE_NEWDECIMAL => {
            decimal(Decimal::read_packed(part.data_raw(), keep).or(Err(REFUSED))?)
        }
        _ => Ok(String::from("other")),
    }
}

// Dates and times.

/// The three ways in which the original reads a packed number.
#[derive(Clone, Copy)]
enum TimeType {
    Date,
    Time,
    Datetime,
}

impl TimeType {
    fn numbered(word: &[u8]) -> Result<Self, Word> {
        match number(word)? {
            7 | 12 => Ok(Self::Datetime),
            10 => Ok(Self::Date),
            11 => Ok(Self::Time),
            _ => Err(WHAT),
        }
    }

    fn of_column(column: ColumnType) -> Option<Self> {
        match column {
            ColumnType::MYSQL_TYPE_TIMESTAMP | ColumnType::MYSQL_TYPE_DATETIME => Some(Self::Datetime),
            ColumnType::MYSQL_TYPE_DATE => Some(Self::Date),
            ColumnType::MYSQL_TYPE_TIME => Some(Self::Time),
            _ => None,
        }
    }

    fn read(self, packed: i64) -> MysqlTime {
        match self {
            Self::Date => MysqlTime::from_int64_date_packed(packed),
            Self::Time => MysqlTime::from_int64_time_packed(packed),
            Self::Datetime => MysqlTime::from_int64_datetime_packed(packed),
        }
    }

    /// A date or time as an answer.
    fn told(self, time: &MysqlTime) -> Result<String, Word> {
        let told_type = match self {
            Self::Date => MysqlTimestampType::MYSQL_TIMESTAMP_DATE,
            Self::Time => MysqlTimestampType::MYSQL_TIMESTAMP_TIME,
            Self::Datetime => MysqlTimestampType::MYSQL_TIMESTAMP_DATETIME,
        };
        if time.time_type != told_type || time.time_zone_displacement != 0 {
            return Err(LOST);
        }
        let MysqlTime { year, month, day, hour, minute, second, second_part, neg, .. } = time;
        let sign = if *neg { '-' } else { '+' };
        Ok(format!("year {year} month {month} day {day} hour {hour} minute {minute} second {second} micro {second_part} {sign}"))
    }
}

fn packed_time(kind: TimeType, packed: &[u8]) -> Result<String, Word> {
    let packed = packed.first_chunk::<8>().ok_or(REFUSED)?;
    kind.told(&kind.read(i64::from_le_bytes(*packed)))
}

fn opaque_time(doc: &[u8]) -> Result<String, Word> {
    let value = root(doc)?;
    let Value::Opaque(part) = &value else {
        return Ok(String::from("other"));
    };
    let Some(kind) = TimeType::of_column(part.value_type()) else {
        return Ok(String::from("other"));
    };
    match value.parse().or(Err(REFUSED))? {
        JsonDom::Scalar(JsonScalar::DateTime(time)) => kind.told(&time),
        _ => Err(LOST),
    }
}

// Views.

/// Does one thing with a container of any kind, and another with all else.
macro_rules! with_container {
    ($value:expr, $view:ident => $done:expr, else $other:expr) => {
        match $value {
            Value::SmallObject($view) => $done,
            Value::LargeObject($view) => $done,
            Value::SmallArray($view) => $done,
            Value::LargeArray($view) => $done,
            _ => $other,
        }
    };
}

/// The same with objects alone.
macro_rules! with_object {
    ($value:expr, $view:ident => $done:expr, else $other:expr) => {
        match $value {
            Value::SmallObject($view) => $done,
            Value::LargeObject($view) => $done,
            _ => $other,
        }
    };
}

/// The same with arrays alone.
macro_rules! with_array {
    ($value:expr, $view:ident => $done:expr, else $other:expr) => {
        match $value {
            Value::SmallArray($view) => $done,
            Value::LargeArray($view) => $done,
            _ => $other,
        }
    };
}

fn root(doc: &[u8]) -> Result<Value<'_>, Word> {
    ParseBuf(doc).parse(()).or(Err(REFUSED))
}

fn code(value: &Value) -> u8 {
    match value {
        Value::SmallObject(_) => 0,
        Value::LargeObject(_) => 1,
        Value::SmallArray(_) => 2,
        Value::LargeArray(_) => 3,
        Value::Null | Value::Bool(_) => 4,
        Value::I16(_) => 5,
        Value::U16(_) => 6,
        Value::I32(_) => 7,
        Value::U32(_) => 8,
        Value::I64(_) => 9,
        Value::U64(_) => 10,
        Value::F64(_) => 11,
        Value::String(_) => 12,
        Value::Opaque(_) => 15,
    }
}

fn count_of(value: &Value) -> u32 {
    value.element_count().unwrap_or(0)
}

fn elem_at<'a>(value: &'a Value<'a>, pos: u32) -> io::Result<Option<Value<'a>>> {
    with_container!(value, view => view.elem_at(pos), else Ok(None))
}

/// A container's place: the four numbers by which a request names a view.
#[derive(Clone, Copy)]
struct Container {
    kind: u8,
    start: usize,
    count: u32,
    size: usize,
}

impl Container {
    fn named(kind: &[u8], start: &[u8], count: &[u8], size: &[u8]) -> Result<Self, Word> {
        let kind = number(kind)?;
        if kind > 3 {
            return Err(WHAT);
        }
        Ok(Self { kind: kind as u8, start: number(start)? as usize, count: number(count)?, size: number(size)? as usize })
    }

    /// The original's view of this kind of the bytes handed in, and the place that it takes if these begin at such a start.
    fn read(kind: u8, start: usize, bytes: &[u8]) -> io::Result<(Value<'_>, Self)> {
        let mut buf = ParseBuf(bytes);
        let value = match kind {
            0 => Value::SmallObject(buf.parse(())?),
            1 => Value::LargeObject(buf.parse(())?),
            2 => Value::SmallArray(buf.parse(())?),
            _ => Value::LargeArray(buf.parse(())?),
        };
        let place = Self { kind, start, count: count_of(&value), size: bytes.len() - buf.len() };
        Ok((value, place))
    }

    /// The original's view of these four numbers, where it has it.
    fn view(self, doc: &[u8]) -> Result<Value<'_>, Word> {
        let bytes = doc.get(self.start..).ok_or(NONE)?;
        let (value, place) = Self::read(self.kind, self.start, bytes).or(Err(NONE))?;
        if (place.count, place.size) == (self.count, self.size) { Ok(value) } else { Err(NONE) }
    }

    fn end(self) -> usize {
        self.start + self.size
    }

    /// Where the value of an entry starts, by the layout: in the entry or at its offset. The entry is there, for the original has read it.
    fn value_start(self, doc: &[u8], pos: u32) -> usize {
        let large = self.kind % 2 == 1;
        let width = if large { 4 } else { 2 };
        let keys = if self.kind < 2 { self.count as usize * (width + 2) } else { 0 };
        let entry = self.start + 2 * width + keys + pos as usize * (width + 1);
        match doc[entry] {
            4..=6 => entry + 1,
            7 | 8 if large => entry + 1,
            _ => self.start + doc[entry + 1..][..width].iter().rev().fold(0, |n, &b| n << 8 | b as usize),
        }
    }
}

/// Where a slice of the document starts.
fn slice_start(doc: &[u8], part: &[u8]) -> Result<usize, Word> {
    let start = (part.as_ptr() as usize).checked_sub(doc.as_ptr() as usize).ok_or(LOST)?;
    if start + part.len() <= doc.len() { Ok(start) } else { Err(LOST) }
}

/// What a value covers in the document.
struct Found {
    start: usize,
    length: usize,
    /// A container's count, an opaque value's column type, else 0.
    extra: u32,
}

/// Finds a value that stands at this start, in a container or document with this end.
fn find(doc: &[u8], value: &Value, start: usize, end: usize) -> Result<Found, Word> {
    match value {
        Value::String(part) => {
            let part = part.str_raw();
            Ok(Found { start: slice_start(doc, part)?, length: part.len(), extra: 0 })
        }
        Value::Opaque(part) => {
            let (part, column) = (part.data_raw(), part.value_type());
            Ok(Found { start: slice_start(doc, part)?, length: part.len(), extra: column as u32 })
        }
        _ if code(value) < 4 => {
            let bytes = doc.get(start..end).ok_or(LOST)?;
            let (again, place) = Container::read(code(value), start, bytes).or(Err(LOST))?;
            if again != *value {
                return Err(LOST);
            }
            Ok(Found { start, length: place.size, extra: place.count })
        }
        _ => {
            let length = match code(value) {
                4 => 1,
                5 | 6 => 2,
                7 | 8 => 4,
                _ => 8,
            };
            let mut alone = vec![code(value)];
            alone.extend_from_slice(doc.get(start..start + length).ok_or(LOST)?);
            let again = root(&alone).or(Err(LOST))?;
            let same = match (&again, value) {
                (Value::F64(x), Value::F64(y)) => x.to_bits() == y.to_bits(),
                _ => again == *value,
            };
            if same { Ok(Found { start, length, extra: 0 }) } else { Err(LOST) }
        }
    }
}

/// A value as an answer, found at its place.
fn told(value: &Value, found: Found) -> String {
    let code = code(value);
    let Found { start, length, extra } = found;
    match value {
        Value::Null => format!("scalar {code} null"),
        Value::Bool(b) => format!("scalar {code} {b}"),
        Value::I16(n) => format!("scalar {code} int {n}"),
        Value::I32(n) => format!("scalar {code} int {n}"),
        Value::I64(n) => format!("scalar {code} int {n}"),
        Value::U16(n) => format!("scalar {code} uint {n}"),
        Value::U32(n) => format!("scalar {code} uint {n}"),
        Value::U64(n) => format!("scalar {code} uint {n}"),
        Value::F64(x) => format!("scalar {code} double {:016x}", x.to_bits()),
        Value::String(_) => format!("scalar {code} string {start} {length}"),
        Value::Opaque(_) => format!("scalar {code} opaque {extra} {start} {length}"),
        _ => format!("container {code} {start} {extra} {length}"),
    }
}

fn find_root(doc: &[u8], value: &Value) -> Result<Found, Word> {
    if doc.is_empty() {
        return Ok(Found { start: 0, length: 0, extra: 0 });
    }
    find(doc, value, 1, doc.len())
}

fn value(doc: &[u8]) -> Result<String, Word> {
    let value = root(doc)?;
    Ok(told(&value, find_root(doc, &value)?))
}

fn told_in(home: Container, pos: u32, value: &Value, doc: &[u8]) -> Result<String, Word> {
    Ok(told(value, find(doc, value, home.value_start(doc, pos), home.end())?))
}

fn told_key(key: &[u8], doc: &[u8]) -> Result<String, Word> {
    Ok(format!("key {} {}", slice_start(doc, key)?, key.len()))
}

fn element(home: Container, pos: u32, doc: &[u8]) -> Result<String, Word> {
    match elem_at(&home.view(doc)?, pos).or(Err(REFUSED))? {
        Some(value) => told_in(home, pos, &value, doc),
        None => Ok(String::from("nothing")),
    }
}

fn key(home: Container, pos: u32, doc: &[u8]) -> Result<String, Word> {
    let view = home.view(doc)?;
    match with_object!(&view, object => object.key_at(pos), else return Err(NONE)).or(Err(REFUSED))? {
        Some(key) => told_key(key.value_raw(), doc),
        None => Ok(String::from("nothing")),
    }
}

/// All steps of an iteration of the original's, each item told by what is handed in.
fn steps<T>(items: impl Iterator<Item = io::Result<T>>, mut tell: impl FnMut(u32, T) -> Result<String, Word>) -> Result<String, Word> {
    let mut line = String::new();
    let mut last = "nothing";
    for (pos, item) in items.enumerate() {
        if pos == MOST_ITEMS {
            last = "more";
            break;
        }
        match item {
            Ok(item) => line.push_str(&tell(pos as u32, item)?),
            Err(_) => line.push_str(REFUSED),
        }
        line.push_str(" ; ");
    }
    line.push_str(last);
    Ok(line)
}

fn elements(home: Container, doc: &[u8]) -> Result<String, Word> {
    let view = home.view(doc)?;
    with_array!(&view, array => steps(array.iter(), |pos, value| told_in(home, pos, &value, doc)), else Err(NONE))
}

fn members(home: Container, doc: &[u8]) -> Result<String, Word> {
    let view = home.view(doc)?;
    with_object!(&view, object => steps(object.iter(), |pos, (key, value)| {
        Ok(format!("{} = {}", told_key(key.value_raw(), doc)?, told_in(home, pos, &value, doc)?))
    }), else Err(NONE))
}

fn keys(home: Container, doc: &[u8]) -> Result<String, Word> {
    let view = home.view(doc)?;
    with_object!(&view, object => steps(object.keys(), |_, key| told_key(key.value_raw(), doc)), else Err(NONE))
}

// The listing.

struct Walk<'a> {
    doc: &'a [u8],
    room: usize,
    events: Vec<[usize; 9]>,
}

/// Who a value is: its depth, its position, its key's start and length, and the index of its container's event, 0 for the root.
struct Path {
    depth: u32,
    pos: u32,
    key: (usize, usize),
    parent: usize,
}

impl Walk<'_> {
    /// Lists a value that the original has given, and all below it. `refused` ends the listing.
    fn list(&mut self, value: &Value, path: Path, found: Found) -> Result<(), Word> {
        if let Value::String(text) = value {
            from_utf8(text.str_raw()).or(Err(REFUSED))?;
        }
        if self.events.len() == self.room {
            return Err(REFUSED);
        }
        let kind = code(value);
        let Found { start, length, extra } = found;
        let Path { depth, pos, key, parent } = path;
        let index = self.events.len();
        self.events.push([kind as usize, depth as usize, pos as usize, key.0, key.1, start, length, extra as usize, parent]);
        if kind < 4 {
            let home = Container { kind, start, count: extra, size: length };
            for pos in 0..home.count {
                if depth == DEEPEST {
                    return Err(REFUSED);
                }
                let key = self.key_at(value, pos)?;
                let child = elem_at(value, pos).or(Err(REFUSED))?.ok_or(LOST)?;
                let found = find(self.doc, &child, home.value_start(self.doc, pos), home.end())?;
                self.list(&child, Path { depth: depth + 1, pos, key, parent: index }, found)?;
            }
        }
        Ok(())
    }

    /// The start and length of a member's key, 0 and 0 for an element.
    fn key_at(&self, value: &Value, pos: u32) -> Result<(usize, usize), Word> {
        let key = with_object!(value, object => object.key_at(pos), else return Ok((0, 0)));
        let key = key.or(Err(REFUSED))?.ok_or(LOST)?;
        let key = key.value_raw();
        from_utf8(key).or(Err(REFUSED))?;
        Ok((slice_start(self.doc, key)?, key.len()))
    }
}

fn listing(doc: &[u8], room: usize) -> Result<String, Word> {
    let mut walk = Walk { doc, room, events: Vec::new() };
    let end = root(doc).and_then(|value| {
        let found = find_root(doc, &value)?;
        walk.list(&value, Path { depth: 0, pos: 0, key: (0, 0), parent: 0 }, found)
    });
    let mut line = walk.events.len().to_string();
    for event in &walk.events {
        line.push_str(" /");
        for number in event {
            write!(line, " {number}").unwrap();
        }
    }
    match end {
        Ok(()) => Ok(line),
        Err(REFUSED) => Ok(line + " refused"),
        Err(word) => Err(word),
    }
}

// The parsed document.

fn dom(doc: &[u8]) -> Result<String, Word> {
    let dom = root(doc)?.parse().or(Err(REFUSED))?;
    let mut text = String::new();
    dom_text(&dom, &root(doc)?, &mut text)?;
    Ok(text)
}

/// A parsed value as text: `null`, `true`, `false`, `i:N`, `u:N`, `d:` and the bits, `s:` and the bytes, `o:TYPE:` and the bytes, `[A,B]`,
/// `{KEY=A,KEY=B}`, all bytes in hexadecimal digits, which are none for no bytes. The original turns opaque decimals, dates and times into values of
/// their own, without the bytes they came from; those are taken from the value's view, which is passed along for this alone.
fn dom_text(dom: &JsonDom, view: &Value, text: &mut String) -> Result<(), Word> {
    match dom {
        JsonDom::Scalar(JsonScalar::Null) => text.push_str("null"),
        JsonDom::Scalar(JsonScalar::Boolean(b)) => write!(text, "{b}").unwrap(),
        JsonDom::Scalar(JsonScalar::Number(JsonNumber::Int(n))) => write!(text, "i:{n}").unwrap(),
        JsonDom::Scalar(JsonScalar::Number(JsonNumber::Uint(n))) => write!(text, "u:{n}").unwrap(),
        JsonDom::Scalar(JsonScalar::Number(JsonNumber::Double(x))) => write!(text, "d:{:016x}", x.to_bits()).unwrap(),
        JsonDom::Scalar(JsonScalar::String(s)) => write!(text, "s:{}", hex(s.as_bytes())).unwrap(),
        JsonDom::Scalar(JsonScalar::Opaque(part)) => {
            // Its type and bytes are private; it prints as base64:typeNUMBER:BYTES.
            let printed = part.to_string();
            let (column, encoded) = printed.strip_prefix("base64:type").and_then(|rest| rest.split_once(':')).ok_or(LOST)?;
            write!(text, "o:{column}:{}", hex(&decode(encoded))).unwrap();
        }
        JsonDom::Scalar(JsonScalar::Number(JsonNumber::Decimal(_)) | JsonScalar::DateTime(_)) => match view {
            Value::Opaque(part) => write!(text, "o:{}:{}", part.value_type() as u8, hex(part.data_raw())).unwrap(),
            _ => return Err(LOST),
        },
        JsonDom::Container(JsonContainer::Array(items)) => {
            text.push('[');
            for (pos, item) in items.iter().enumerate() {
                if pos > 0 {
                    text.push(',');
                }
                dom_text(item, &elem_at(view, pos as u32).or(Err(LOST))?.ok_or(LOST)?, text)?;
            }
            text.push(']');
        }
        JsonDom::Container(JsonContainer::Object(items)) => {
            // Of the members with one key the original keeps the last.
            let mut last = HashMap::new();
            for pos in 0..count_of(view) {
                let key = with_object!(view, object => object.key_at(pos), else return Err(LOST));
                last.insert(key.or(Err(LOST))?.ok_or(LOST)?.value().into_owned(), pos);
            }
            text.push('{');
            for (i, (key, item)) in items.iter().enumerate() {
                if i > 0 {
                    text.push(',');
                }
                write!(text, "{}=", hex(key.as_bytes())).unwrap();
                let pos = *last.get(key).ok_or(LOST)?;
                dom_text(item, &elem_at(view, pos).or(Err(LOST))?.ok_or(LOST)?, text)?;
            }
            text.push('}');
        }
    }
    Ok(())
}
