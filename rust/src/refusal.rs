use core::fmt;

/// Why a question was not answered. The numbers are those of the header and of every other form of this library.
#[derive(Debug, Clone, Copy, PartialEq, Eq, Hash, PartialOrd, Ord)]
pub enum Refusal {
    /// The document is longer than 16,777,216 bytes.
    Document = 1,
    /// A type code is unknown.
    Type = 2,
    /// The bytes end early.
    Cut = 3,
    /// A container's size exceeds what is left, or its header the size.
    Size = 4,
    /// A key starts before the header's end, or ends past the container.
    Key = 5,
    /// A value's offset is before the end of its own entry, or past the container.
    Pointer = 6,
    /// A literal is unknown.
    Literal = 7,
    /// A length field goes on after five bytes, or its length is above 4,294,967,295.
    Length = 8,
    /// A key or a string is not UTF-8; the walk alone asks, and says where it breaks.
    Utf8 = 9,
    /// A column type is unknown.
    Column = 10,
    /// A path is longer than 100; the walk alone asks.
    Depth = 11,
    /// There is no room for an event of the walk.
    Events = 12,
    /// There is no whole container of this code, start, size and count in the document, or the wrong kind was asked.
    View = 13,
    /// The precision is over 65, or the scale over 30 or over the precision.
    Range = 20,
    /// The bytes of a decimal end early.
    Short = 21,
    /// A group of digits holds a number with more digits than the group has.
    Group = 22,
    /// The text is no decimal.
    Text = 23,
    /// The text has over 65 digits, or over 30 after the point.
    Digits = 24,
    /// What is lent is shorter than the result.
    Room = 25,
    /// The numbers are no decimal.
    Record = 26,
}

impl Refusal {
    /// All refusals, by their numbers.
    pub const ALL: [Refusal; 20] = [
        Refusal::Document,
        Refusal::Type,
        Refusal::Cut,
        Refusal::Size,
        Refusal::Key,
        Refusal::Pointer,
        Refusal::Literal,
        Refusal::Length,
        Refusal::Utf8,
        Refusal::Column,
        Refusal::Depth,
        Refusal::Events,
        Refusal::View,
        Refusal::Range,
        Refusal::Short,
        Refusal::Group,
        Refusal::Text,
        Refusal::Digits,
        Refusal::Room,
        Refusal::Record,
    ];

    /// Its number.
    pub const fn number(self) -> u32 {
        self as u32
    }

    /// The refusal of a number, where there is one.
    pub fn from_number(number: u32) -> Option<Refusal> {
        Refusal::ALL.into_iter().find(|refusal| refusal.number() == number)
    }

    /// What it is given for.
    pub const fn words(self) -> &'static str {
        match self {
            Refusal::Document => "the document is longer than 16,777,216 bytes",
            Refusal::Type => "a type code is unknown",
            Refusal::Cut => "the bytes end early",
            Refusal::Size => "a container's size exceeds what is left, or its header the size",
            Refusal::Key => "a key starts before the header's end, or ends past the container",
            Refusal::Pointer => "a value's offset is before the end of its own entry, or past the container",
            Refusal::Literal => "a literal is unknown",
            Refusal::Length => "a length field goes on after five bytes, or its length is above 4,294,967,295",
            Refusal::Utf8 => "a key or a string is not UTF-8",
            Refusal::Column => "a column type is unknown",
            Refusal::Depth => "a path is longer than 100",
            Refusal::Events => "there is no room for an event",
            Refusal::View => "the view is not that of a whole container in the document, or the wrong kind was asked",
            Refusal::Range => "the precision is over 65, or the scale over 30 or over the precision",
            Refusal::Short => "the bytes of a decimal end early",
            Refusal::Group => "a group of digits holds a number with more digits than the group has",
            Refusal::Text => "the text is no decimal",
            Refusal::Digits => "the text has over 65 digits, or over 30 after the point",
            Refusal::Room => "the output is shorter than the result",
            Refusal::Record => "the record is no decimal",
        }
    }
}

/// The number and the words: `9: a key or a string is not UTF-8`.
impl fmt::Display for Refusal {
    fn fmt(&self, f: &mut fmt::Formatter<'_>) -> fmt::Result {
        write!(f, "{}: {}", self.number(), self.words())
    }
}

impl core::error::Error for Refusal {}

/// What a function of the archive returned: 0, or the number of a refusal.
pub(crate) fn answered(returned: u32) -> Result<(), Refusal> {
    if returned == 0 {
        return Ok(());
    }
    // That no other number is returned is part of what is proved of the archive.
    Err(Refusal::from_number(returned).expect("a number of the table"))
}
