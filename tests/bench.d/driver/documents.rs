//! The documents that both sides list, written as MySQL writes them: header, key entries, value entries, keys, values, no gap, keys by length and
//! then by bytes, a small container wherever it fits.

enum Node {
    Null,
    Truth(bool),
    Int(i64),
    Uint(u64),
    Double(f64),
    Text(String),
    Decimal(&'static [u8]),
    Array(Vec<Node>),
    Object(Vec<(&'static str, Node)>),
}

use Node::*;

/// The longest document.
const LONGEST: usize = 1 << 24;

pub fn settings() -> Vec<u8> {
    document(&console(0))
}

/// As many of the same settings, each with other numbers and names, as fit into 65,536 bytes.
pub fn large() -> Vec<u8> {
    many(1 << 16, console)
}

/// The same up to the longest document.
pub fn longest() -> Vec<u8> {
    many(LONGEST, console)
}

/// More than half of the letters of its texts take two bytes.
pub fn accents() -> Vec<u8> {
    many(1 << 16, |i| {
        let letters: Vec<char> = "éaèiêuëoïnöcûàsîtôrâçñ".chars().collect();
        let text = |from: usize, count: usize| Text((from..from + count).map(|at| letters[at * 7 % letters.len()]).collect());
        Object(vec![
            ("clé", Uint(i as u64)),
            ("prénom", text(i, 9)),
            ("été", text(i + 1, 14)),
            ("élève", Truth(i % 2 == 0)),
            ("résumé", text(i + 2, 120)),
            ("théâtres", Array(vec![text(i + 3, 24), text(i + 4, 31), text(i + 5, 12)])),
        ])
    })
}

/// One string of ASCII, as long as fits into 65,536 bytes.
pub fn ascii() -> Vec<u8> {
    let words = "plain words without any accent, ";
    let (code, text) = Text(words.chars().cycle().take(65_532).collect()).written();
    [vec![code], text].concat()
}

/// A thousand entries with the offset of one string of 20,000 bytes.
pub fn shared() -> Vec<u8> {
    let count = 1000u16;
    let words = "one long string that every entry shares ";
    let text: String = words.chars().cycle().take(20_000).collect();
    let (_, text) = Text(text).written();
    let header = 4 + 3 * count;
    let mut bytes = vec![2];
    bytes.extend(count.to_le_bytes());
    bytes.extend((header + text.len() as u16).to_le_bytes());
    for _ in 0..count {
        bytes.push(12);
        bytes.extend(header.to_le_bytes());
    }
    bytes.extend(text);
    bytes
}

/// The deepest documents that are read: a literal inside a hundred arrays, a hundred objects, and both by turns.
pub fn deepest() -> [Vec<u8>; 3] {
    let nested = |object: fn(usize) -> bool| {
        let wrap = |inner, level| if object(level) { Object(vec![("in", inner)]) } else { Array(vec![inner]) };
        document(&(0..100).fold(Truth(true), wrap))
    };
    [nested(|_| false), nested(|_| true), nested(|level| level % 2 == 0)]
}

/// How many containers are one too many.
pub const TOO_DEEP: usize = 101;

/// So many objects, and so many large ones, which are refused at the deepest entry.
pub fn too_deep() -> [Vec<u8>; 2] {
    let objects = document(&(0..TOO_DEEP).fold(Truth(true), |inner, _| Object(vec![("in", inner)])));
    [objects, (0..TOO_DEEP).fold(vec![4, 1], |inner, _| large_object(&inner))]
}

/// A large object of one value, which stands behind the key unless it is the literal, which stands in the entry.
fn large_object(value: &[u8]) -> Vec<u8> {
    let (header, key) = (8 + 6 + 5u32, b"in");
    let (code, content) = (value[0], &value[1..]);
    let behind = header + key.len() as u32;
    let (word, rest) = if code == 4 { (content[0] as u32, &[][..]) } else { (behind, content) };
    let mut bytes = vec![1];
    bytes.extend(1u32.to_le_bytes());
    bytes.extend((behind + rest.len() as u32).to_le_bytes());
    bytes.extend(header.to_le_bytes());
    bytes.extend((key.len() as u16).to_le_bytes());
    bytes.push(code);
    bytes.extend(word.to_le_bytes());
    bytes.extend(key);
    bytes.extend(rest);
    bytes
}

fn many(most: usize, one: impl Fn(usize) -> Node) -> Vec<u8> {
    let mut items = Vec::new();
    // The type byte and the largest header without entries; an entry of a large array.
    let mut size = 9;
    loop {
        let item = one(items.len()).written();
        size += 5 + item.1.len();
        if size > most {
            break;
        }
        items.push((None, item));
    }
    let (code, content) = container(&items);
    let mut bytes = vec![code];
    bytes.extend(content);
    bytes
}

fn document(root: &Node) -> Vec<u8> {
    let (code, content) = root.written();
    let mut bytes = vec![code];
    bytes.extend(content);
    bytes
}

/// The settings of a console: 31 values.
fn console(i: usize) -> Node {
    let n = i as i64;
    let text = |text: &str| Text(String::from(text));
    Object(vec![
        ("name", Text(format!("Console {:05}", i % 100_000))),
        ("owner", text("Zoë")),
        ("active", Truth(i % 3 != 1)),
        ("volume", Int(80 - n % 60)),
        ("serial", Uint(12_345_678_901 + i as u64)),
        ("price", Decimal(&[4, 2, 0x8C, 0x22])),
        ("parent", Null),
        (
            "screen",
            Object(vec![
                ("width", Int(1920)),
                ("height", Int(1080)),
                ("gamma", Double(2.2 - 0.001 * (i % 100) as f64)),
                ("theme", text("dark")),
                ("night", Truth(i % 2 == 0)),
            ]),
        ),
        (
            "network",
            Object(vec![
                ("host", Text(format!("c{:05}.example.org", i % 100_000))),
                ("port", Uint(8443)),
                ("retries", Int(3)),
                ("timeout", Int(30_000 + n % 1000)),
                ("secure", Truth(true)),
            ]),
        ),
        ("limits", Object(vec![("rows", Int(100_000 + n % 1000)), ("rate", Double(0.75))])),
        ("languages", Array(vec![text("en"), text("nl"), text("is")])),
        ("marks", Array(vec![Int(7), Int(-12 - n % 100), Int(70_000)])),
    ])
}

impl Node {
    /// The type code and the bytes of the content.
    fn written(&self) -> (u8, Vec<u8>) {
        match self {
            Null => (4, vec![0]),
            Truth(truth) => (4, vec![if *truth { 1 } else { 2 }]),
            Int(n) => match (i16::try_from(*n), i32::try_from(*n)) {
                (Ok(n), _) => (5, n.to_le_bytes().to_vec()),
                (_, Ok(n)) => (7, n.to_le_bytes().to_vec()),
                _ => (9, n.to_le_bytes().to_vec()),
            },
            Uint(n) => match (u16::try_from(*n), u32::try_from(*n)) {
                (Ok(n), _) => (6, n.to_le_bytes().to_vec()),
                (_, Ok(n)) => (8, n.to_le_bytes().to_vec()),
                _ => (10, n.to_le_bytes().to_vec()),
            },
            Double(x) => (11, x.to_le_bytes().to_vec()),
            Text(text) => (12, with_length(text.as_bytes(), Vec::new())),
            // The column type of a decimal.
            Decimal(packed) => (15, with_length(packed, vec![246])),
            Array(items) => container(&items.iter().map(|item| (None, item.written())).collect::<Vec<_>>()),
            Object(members) => {
                let mut members: Vec<_> = members.iter().map(|(key, value)| (Some(key.as_bytes()), value.written())).collect();
                members.sort_by_key(|(key, _)| key.map(|key| (key.len(), key)));
                container(&members)
            }
        }
    }
}

/// The bytes after their length in sevens, lowest first, all after what stands before.
fn with_length(content: &[u8], mut before: Vec<u8>) -> Vec<u8> {
    let mut rest = content.len();
    while rest > 127 {
        before.push(rest as u8 | 128);
        rest >>= 7;
    }
    before.push(rest as u8);
    before.extend(content);
    before
}

type Item<'a> = (Option<&'a [u8]>, (u8, Vec<u8>));

/// An object where the items have keys, else an array. An empty object is not written here.
fn container(items: &[Item]) -> (u8, Vec<u8>) {
    let object = items.first().is_some_and(|(key, _)| key.is_some());
    let code = if object { 0 } else { 2 };
    match sized(items, object, 2) {
        Some(bytes) => (code, bytes),
        None => (code + 1, sized(items, object, 4).unwrap()),
    }
}

/// A container whose offsets take two bytes or four; nothing where it is too large for them.
fn sized(items: &[Item], object: bool, width: usize) -> Option<Vec<u8>> {
    let inlined = |code| (4..7).contains(&code) || width == 4 && (7..9).contains(&code);
    let header = 2 * width + items.len() * if object { 2 * width + 3 } else { width + 1 };
    let keys: usize = items.iter().map(|(key, _)| key.map_or(0, <[u8]>::len)).sum();
    let outside = |(_, (code, content)): &Item| if inlined(*code) { 0 } else { content.len() };
    let size = header + keys + items.iter().map(outside).sum::<usize>();
    if width == 2 && size > u16::MAX as usize {
        return None;
    }
    let mut bytes = Vec::with_capacity(size);
    let number = |bytes: &mut Vec<u8>, n: usize| bytes.extend(&n.to_le_bytes()[..width]);
    number(&mut bytes, items.len());
    number(&mut bytes, size);
    let mut next = header;
    for (key, _) in items {
        if let Some(key) = key {
            number(&mut bytes, next);
            bytes.extend((key.len() as u16).to_le_bytes());
            next += key.len();
        }
    }
    for item in items {
        let (_, (code, content)) = item;
        bytes.push(*code);
        if inlined(*code) {
            bytes.extend(content);
            bytes.extend(std::iter::repeat_n(0, width - content.len()));
        } else {
            number(&mut bytes, next);
            next += outside(item);
        }
    }
    for (key, _) in items {
        bytes.extend(key.unwrap_or_default());
    }
    for item in items {
        if outside(item) > 0 {
            bytes.extend(&item.1.1);
        }
    }
    Some(bytes)
}
