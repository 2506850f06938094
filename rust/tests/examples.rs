//! Document 01's examples, and each refusal of its table, asked of the archive. Two things cannot be asked here: the length 4,026,531,840 itself, since no
//! document is as long, and what the program jsonb-list prints.
use bratthelm::jsonb::NEWDECIMAL;
use bratthelm::{walk, Decimal, Event, Refusal, Stopped, Value, EVENT_LEN};
use std::cmp::Ordering::{Equal, Greater, Less};

const LIST: &str = "02 02 00 0A 00 04 01 00 05 FE FF";
const ZOE: &str = "00 01 00 11 00 0B 00 01 00 0C 0C 00 61 04 5A 6F C3 AB";

/// The bytes that hexadecimal digits write.
fn bytes(hex: &str) -> Vec<u8> {
    hex.split_whitespace().map(|byte| u8::from_str_radix(byte, 16).unwrap()).collect()
}

/// The events of a walk with room for so many, nine numbers each, and its end. What stands behind the events must be as it was.
fn walked(doc: &[u8], room: usize) -> (Vec<[u32; EVENT_LEN]>, Result<u32, Stopped>) {
    const UNTOUCHED: u32 = 0xDEAD_BEEF;
    // Eight numbers more are lent, which are no room.
    let mut lent = vec![UNTOUCHED; room * EVENT_LEN + 8];
    let walk = walk(doc, &mut lent);
    let end = walk.end();
    let mut events = Vec::new();
    let mut told = Ok(0);
    for item in walk {
        assert!(told.is_ok(), "nothing follows a refusal");
        match item {
            Ok(e) => events.push([e.code, e.depth, e.position, e.key.start, e.key.len, e.part.start, e.part.len, e.extra, e.parent]),
            Err(stopped) => told = Err(stopped),
        }
    }
    let count = events.len() as u32;
    assert_eq!(end, told.map(|_| count));
    assert_eq!(end.unwrap_or_else(|stopped| stopped.count), count);
    assert!(lent[events.len() * EVENT_LEN..].iter().all(|&n| n == UNTOUCHED));
    (events, end)
}

fn stopped<T>(refusal: Refusal, place: u32, count: u32) -> Result<T, Stopped> {
    Err(Stopped { refusal, place, count })
}

/// What the root of a document is refused with.
fn refused(hex: &str) -> Refusal {
    Value::deserialize(&bytes(hex)).unwrap_err()
}

/// The element of an array at the root.
fn element(hex: &str, pos: u32) -> Result<Option<String>, Refusal> {
    let doc = bytes(hex);
    let array = Value::deserialize(&doc)?.as_array().expect("an array");
    Ok(array.elem_at(pos)?.map(|value| match value {
        Value::String(string) => format!("{:02X?}", string.str_raw()),
        other => format!("{other:?}"),
    }))
}

fn parsed(text: &str) -> Decimal {
    Decimal::parse_str_bytes(text.as_bytes()).unwrap()
}

/// A literal inside so many arrays.
fn nested(arrays: usize) -> Vec<u8> {
    let mut doc = vec![2];
    for left in (1..=arrays).rev() {
        let [low, high] = (7 * left as u16).to_le_bytes();
        doc.extend([1, 0, low, high, if left > 1 { 2 } else { 4 }, if left > 1 { 7 } else { 1 }, 0]);
    }
    doc
}

#[test]
fn list_of_true_and_minus_2() {
    let doc = bytes(LIST);
    let all = [[2, 0, 0, 0, 0, 1, 10, 2, 0], [4, 1, 0, 0, 0, 6, 1, 0, 0], [5, 1, 1, 0, 0, 9, 2, 0, 0]];
    assert_eq!(walked(&doc, 3), (all.to_vec(), Ok(3)));
    assert_eq!(walked(&doc, 1820), (all.to_vec(), Ok(3)));
    assert_eq!(walked(&doc, 2), (all[..2].to_vec(), stopped(Refusal::Events, 8, 2)));
    assert_eq!(walked(&doc, 0), (vec![], stopped(Refusal::Events, 0, 0)));
    let array = Value::deserialize(&doc).unwrap().as_array().unwrap();
    assert_eq!(array.element_count(), 2);
    assert_eq!(format!("{array:?}"), "ComplexValue { code: 2, start: 1, size: 10, count: 2 }");
    assert!(matches!(array.elem_at(0), Ok(Some(Value::Bool(true)))));
    assert!(matches!(array.elem_at(1), Ok(Some(Value::I16(-2)))));
    assert!(matches!(array.elem_at(2), Ok(None)));
    assert!(matches!(array.elem_at(u32::MAX), Ok(None)));
    assert_eq!(array.iter().filter(Result::is_ok).count(), 2);
}

#[test]
fn literal_inside_100_and_101_arrays() {
    let (events, end) = walked(&nested(100), 200);
    assert_eq!(end, Ok(101));
    assert_eq!(events[99], [2, 99, 0, 0, 0, 1 + 7 * 99, 7, 1, 98]);
    assert_eq!(events[100], [4, 100, 0, 0, 0, 699, 1, 0, 99]);
    let (events, end) = walked(&nested(101), 200);
    assert_eq!(end, stopped(Refusal::Depth, 705, 101));
    assert_eq!(events[100], [2, 100, 0, 0, 0, 1 + 7 * 100, 7, 1, 99]);
}

/// Two arrays in an array, of null and true and of false.
const ARRAYS: &str = "02 02 00 1B 00 02 0A 00 02 14 00 02 00 0A 00 04 00 00 04 01 00 01 00 07 00 04 02 00";
/// A member that is an array of two nulls, and true beside it.
const BESIDE: &str = "00 02 00 1E 00 12 00 01 00 13 00 01 00 02 14 00 04 01 00 61 62 02 00 0A 00 04 00 00 04 00 00";

/// The containers of a walk's events by their indices. Each event must climb to the root in as many steps as its depth, and its path, as the events
/// before it tell it, must be its container's and its own position.
fn parents(doc: &[u8], room: usize) -> (Vec<u32>, Result<u32, Stopped>) {
    let mut lent = vec![0; room * EVENT_LEN];
    let walk = walk(doc, &mut lent);
    let events: Vec<Event> = walk.clone().map_while(Result::ok).collect();
    let (mut path, mut paths) = (Vec::new(), Vec::new());
    for (i, &event) in events.iter().enumerate() {
        assert_eq!(walk.event(i as u32), Some(event));
        // A path comes before what is below it: an event's path goes on with the one of the last event of a depth one less.
        path.truncate((event.depth as usize).saturating_sub(1));
        path.extend((event.depth > 0).then_some(event.position));
        paths.push(path.clone());
        let climb: Vec<Event> = std::iter::successors(Some(event), |&event| walk.parent(event)).collect();
        assert_eq!(climb.len() as u32, event.depth + 1);
        assert_eq!(climb.last(), events.first());
        assert!(climb.iter().rev().skip(1).map(|event| event.position).eq(path.iter().copied()));
        if event.depth > 0 {
            assert!((event.parent as usize) < i);
            assert_eq!(paths[event.parent as usize], path[..path.len() - 1]);
        } else {
            assert_eq!((i, event.parent, walk.parent(event)), (0, 0, None));
        }
    }
    assert_eq!(walk.event(events.len() as u32), None);
    assert_eq!(walk.event(u32::MAX), None);
    (events.iter().map(|event| event.parent).collect(), walk.end())
}

#[test]
fn each_event_climbs_to_the_root() {
    assert_eq!(parents(&[], 1), (vec![0], Ok(1)));
    assert_eq!(parents(&bytes(LIST), 3), (vec![0, 0, 0], Ok(3)));
    assert_eq!(parents(&bytes(ARRAYS), 9), (vec![0, 0, 1, 1, 0, 4], Ok(6)));
    assert_eq!(parents(&bytes(BESIDE), 9), (vec![0, 0, 1, 1, 0], Ok(5)));
    // an empty array contains nothing; the same array at two positions is two events, each with its element
    assert_eq!(
        parents(&bytes("02 02 00 1C 00 02 0A 00 02 0E 00 00 00 04 00 01 00 0E 00 02 07 00 01 00 07 00 04 01 00"), 9),
        (vec![0, 0, 0, 2, 3], Ok(5))
    );
    assert_eq!(parents(&bytes("02 02 00 11 00 02 0A 00 02 0A 00 01 00 07 00 04 01 00"), 9), (vec![0, 0, 1, 0, 3], Ok(5)));
    let chain = |last: u32| std::iter::once(0).chain(0..last).collect::<Vec<_>>();
    assert_eq!(parents(&nested(100), 101), (chain(100), Ok(101)));
}

#[test]
fn events_before_a_refusal_climb_too() {
    let mut literal = bytes(ARRAYS);
    literal[26] = 3;
    assert_eq!(parents(&literal, 9), (vec![0, 0, 1, 1, 0], stopped(Refusal::Literal, 25, 5)));
    let mut code = bytes(ARRAYS);
    code[8] = 13;
    assert_eq!(parents(&code, 9), (vec![0, 0, 1, 1], stopped(Refusal::Type, 8, 4)));
    let mut beside = bytes(BESIDE);
    beside[17] = 3;
    assert_eq!(parents(&beside, 9), (vec![0, 0, 1, 1], stopped(Refusal::Literal, 16, 4)));
    for (room, place) in [(0, 0), (1, 5), (2, 15), (3, 18), (4, 8), (5, 25)] {
        let (found, end) = parents(&bytes(ARRAYS), room);
        assert_eq!((&found[..], end), (&[0, 0, 1, 1, 0][..room], stopped(Refusal::Events, place, room as u32)));
    }
    let (found, end) = parents(&nested(101), 200);
    assert_eq!((found.len(), found[100], end), (101, 99, stopped(Refusal::Depth, 705, 101)));
}

#[test]
fn member_a_is_zoe() {
    let doc = bytes(ZOE);
    let object = Value::deserialize(&doc).unwrap().as_object().unwrap();
    assert_eq!(object.element_count(), 1);
    assert_eq!(object.key_at(0).unwrap().unwrap().value_raw(), b"a");
    assert!(object.key_at(1).unwrap().is_none());
    assert!(object.elem_at(1).unwrap().is_none());
    assert_eq!(object.keys().map(|key| key.unwrap().value_raw()).collect::<Vec<_>>(), [b"a"]);
    let members: Vec<_> = object.iter().collect::<Result<_, _>>().unwrap();
    assert_eq!(members.len(), 1);
    assert!(matches!(members[0], (key, Value::String(name)) if key.value_raw() == b"a" && name.str_raw() == "Zoë".as_bytes()));

    let root = [0, 0, 0, 0, 0, 1, 17, 1, 0];
    assert_eq!(walked(&doc, 2), (vec![root, [12, 1, 0, 12, 1, 14, 4, 0, 0]], Ok(2)));
    let mut lent = [0; 2 * EVENT_LEN];
    let event = walk(&doc, &mut lent).nth(1).unwrap().unwrap();
    assert_eq!((event.key.of(&doc), event.part.of(&doc)), (Some(&b"a"[..]), Some("Zoë".as_bytes())));
    assert_eq!(event.part.of(&doc[..17]), None);
}

#[test]
fn zoe_damaged() {
    let root = vec![[0, 0, 0, 0, 0, 1, 17, 1, 0]];
    let mut cut = bytes(ZOE);
    cut[17] = 0x22;
    assert_eq!(walked(&cut, 2), (root.clone(), stopped(Refusal::Utf8, 17, 1)));
    assert!(Value::deserialize(&cut).unwrap().as_object().unwrap().elem_at(0).is_ok(), "the walk alone asks for UTF-8");
    let mut early = bytes(ZOE);
    early[5] = 0x0A;
    assert_eq!(walked(&early, 2), (root, stopped(Refusal::Key, 5, 1)));
    let object = Value::deserialize(&early).unwrap().as_object().unwrap();
    assert_eq!(object.key_at(0).unwrap_err(), Refusal::Key);
    assert!(object.elem_at(0).unwrap().is_some());
    let key = walked(&bytes("00 01 00 0C 00 0B 00 01 00 04 01 00 FF"), 2);
    assert_eq!(key, (vec![[0, 0, 0, 0, 0, 1, 12, 1, 0]], stopped(Refusal::Utf8, 12, 1)));
}

/// The byte of a break by the standard library's error, which begins with a character: its bytes that are right are passed over.
fn break_of(text: &[u8]) -> Option<usize> {
    let fault = std::str::from_utf8(text).err()?;
    let begun = fault.valid_up_to();
    Some(match fault.error_len() {
        None => text.len(),
        Some(len) if (0xC2..=0xF4).contains(&text[begun]) => begun + len,
        Some(_) => begun,
    })
}

#[test]
fn texts_break_at_their_byte() {
    let edges = [0x41, 0x7F, 0x80, 0x8F, 0x90, 0x9F, 0xA0, 0xBF, 0xC1, 0xC2, 0xDF, 0xE0, 0xE2, 0xED, 0xEF, 0xF0, 0xF3, 0xF4, 0xF5, 0xFF];
    let mut broken = 0;
    for n in 0..edges.len().pow(3) {
        let text = [edges[n % 20], edges[n / 20 % 20], edges[n / 400], 0x80];
        let place = break_of(&text);
        let at = |from: usize, count: u32| place.map(|p| Stopped { refusal: Refusal::Utf8, place: (from + p) as u32, count });
        // a root string, and the key of a member null; a byte that may go on follows both
        let string = [&[0x0C, 4][..], &text, &[0xBF]].concat();
        assert_eq!(walk(&string, &mut [0; 2 * EVENT_LEN]).end().err(), at(2, 0), "{text:02x?}");
        let object = [&bytes("00 01 00 10 00 0B 00 04 00 04 00 00")[..], &text, &[0xBF]].concat();
        assert_eq!(walk(&object, &mut [0; 2 * EVENT_LEN]).end().err(), at(12, 1), "{text:02x?}");
        broken += u32::from(place.is_some());
    }
    assert!(0 < broken && broken < 8000, "{broken} of 8000");
}

#[test]
fn string_over_a_later_entry() {
    assert_eq!(element("02 02 00 0C 00 0C 07 00 04 01 00 41 42", 0), Ok(Some("[01, 00, 41, 42]".into())));
    assert_eq!(element("02 02 00 0C 00 0C 06 00 04 01 00 41 42", 0), Err(Refusal::Pointer));
    assert_eq!(element("02 02 00 0C 00 0C 06 00 04 01 00 41 42", 1), Ok(Some("Bool(true)".into())));
}

#[test]
fn minus_1_beside_its_entry_and_in_it() {
    assert_eq!(element("02 01 00 0B 00 07 07 00 FF FF FF FF", 0), Ok(Some("I32(-1)".into())));
    assert_eq!(element("03 01 00 00 00 0D 00 00 00 07 FF FF FF FF", 0), Ok(Some("I32(-1)".into())));
}

#[test]
fn empty_array() {
    let doc = bytes("02 00 00 04 00");
    let array = Value::deserialize(&doc).unwrap();
    assert!(array.is_array() && !array.is_object());
    assert_eq!(array.element_count(), Some(0));
    assert_eq!(array.as_array().unwrap().iter().count(), 0);
    assert_eq!(refused("02 00 00 05 00"), Refusal::Size);
    assert_eq!(refused("02 01 00 04 00"), Refusal::Size);
    assert_eq!(refused("02 00 00"), Refusal::Cut);
}

#[test]
fn literals_and_type_codes() {
    assert!(matches!(Value::deserialize(&bytes("04 01")), Ok(Value::Bool(true))));
    assert!(matches!(Value::deserialize(&bytes("04 02")), Ok(Value::Bool(false))));
    assert!(matches!(Value::deserialize(&bytes("04 00")), Ok(Value::Null)));
    assert_eq!(refused("04 03"), Refusal::Literal);
    assert_eq!(refused("0D"), Refusal::Type);
    assert_eq!(refused("0E"), Refusal::Type);
    assert!(matches!(Value::deserialize(&[]), Ok(Value::Null)));
    assert_eq!(walked(&[], 1), (vec![[4, 0, 0, 0, 0, 0, 0, 0, 0]], Ok(1)));
}

#[test]
fn length_fields() {
    // The first length is good, so that it is the string which is missing.
    assert_eq!(refused("0C 80 80 80 80 0F"), Refusal::Cut);
    assert_eq!(refused("0C 80 80 80 80 10"), Refusal::Length);
    assert!(matches!(Value::deserialize(&bytes("0C 81 80 80 80 00 41")), Ok(Value::String(x)) if x.str_raw() == b"A"));
}

#[test]
fn numbers_keep_every_bit() {
    let number = |hex: &str| format!("{:?}", Value::deserialize(&bytes(hex)).unwrap());
    assert_eq!(number("05 00 80"), "I16(-32768)");
    assert_eq!(number("06 FF FF"), "U16(65535)");
    assert_eq!(number("07 00 00 00 80"), "I32(-2147483648)");
    assert_eq!(number("08 FF FF FF FF"), "U32(4294967295)");
    assert_eq!(number("09 00 00 00 00 00 00 00 80"), "I64(-9223372036854775808)");
    assert_eq!(number("0A FF FF FF FF FF FF FF FF"), "U64(18446744073709551615)");
    assert_eq!(number("0B 00 00 00 00 00 00 F8 3F"), "F64(1.5)");
    let nan = bytes("0B 01 00 00 00 00 00 F8 7F");
    assert!(matches!(Value::deserialize(&nan), Ok(Value::F64(x)) if x.to_bits() == 0x7FF8_0000_0000_0001));
}

#[test]
fn opaque_decimal() {
    let doc = bytes("0F F6 04 04 02 8C 22");
    let Ok(Value::Opaque(price)) = Value::deserialize(&doc) else { panic!("an opaque value") };
    assert_eq!(price.value_type(), NEWDECIMAL);
    assert_eq!(Decimal::read_packed(price.data_raw(), false).unwrap().to_string(), "12.34");
    assert_eq!(walked(&doc, 1), (vec![[15, 0, 0, 0, 0, 3, 4, 246, 0]], Ok(1)));
    assert_eq!(refused("0F 15 00"), Refusal::Column);
    assert_eq!(refused("0F"), Refusal::Cut);
}

#[test]
fn iteration_goes_on_past_a_refusal() {
    let doc = bytes("02 02 00 0A 00 0D 01 00 05 FE FF");
    let items: Vec<_> = Value::deserialize(&doc).unwrap().as_array().unwrap().iter().collect();
    assert!(matches!(items[..], [Err(Refusal::Type), Ok(Value::I16(-2))]));
    // Two members that share their key; the second's literal is unknown, and in the other document its key too is out of place.
    let doc = bytes("00 02 00 13 00 12 00 01 00 12 00 01 00 04 01 00 04 03 00 6B");
    let items: Vec<_> = Value::deserialize(&doc).unwrap().as_object().unwrap().iter().collect();
    assert!(matches!(items[..], [Ok((_, Value::Bool(true))), Err(Refusal::Literal)]));
    let doc = bytes("00 02 00 13 00 12 00 01 00 11 00 01 00 04 01 00 04 03 00 6B");
    let object = Value::deserialize(&doc).unwrap().as_object().unwrap();
    assert!(matches!(object.iter().collect::<Vec<_>>()[..], [Ok(_), Err(Refusal::Key)]));
    assert!(matches!(object.keys().collect::<Vec<_>>()[..], [Ok(_), Err(Refusal::Key)]));
}

#[test]
fn containers_by_their_numbers() {
    let doc = bytes(LIST);
    let array = Value::container(&doc, 2, 1, 10, 2).unwrap().as_array().unwrap();
    assert!(matches!(array.elem_at(1), Ok(Some(Value::I16(-2)))));
    for (code, start, size, count) in
        [(2, 1, 9, 2), (2, 1, 10, 1), (2, 2, 10, 2), (3, 1, 10, 2), (4, 1, 10, 2), (u32::MAX, u32::MAX, u32::MAX, u32::MAX)]
    {
        assert_eq!(Value::container(&doc, code, start, size, count).unwrap_err(), Refusal::View);
    }
}

#[test]
fn longest_document() {
    let mut doc = vec![0; 16_777_217];
    doc[0] = 4;
    assert!(matches!(Value::deserialize(&doc[..16_777_216]), Ok(Value::Null)));
    assert_eq!(Value::deserialize(&doc).unwrap_err(), Refusal::Document);
    assert_eq!(Value::container(&doc, 2, 1, 9, 9).unwrap_err(), Refusal::Document);
    assert_eq!(walked(&doc, 1), (vec![], stopped(Refusal::Document, 0, 0)));
}

#[test]
fn packed_decimals() {
    for keep in [false, true] {
        assert_eq!(Decimal::read_packed(&bytes("04 02 73 DD"), keep).unwrap().to_string(), "-12.34");
        assert_eq!(Decimal::read_packed(&bytes("04 02 8C 22"), keep).unwrap().to_string(), "12.34");
        assert_eq!(Decimal::read_packed(&bytes("04 02 8C"), keep).unwrap_err(), Refusal::Short);
        assert_eq!(Decimal::read_packed(&bytes("04"), keep).unwrap_err(), Refusal::Short);
        assert_eq!(Decimal::read_packed(&bytes("00 01"), keep).unwrap_err(), Refusal::Range);
        assert_eq!(Decimal::read_packed(&bytes("00 00"), keep).unwrap().to_string(), "0");
    }
}

#[test]
fn digit_bytes() {
    for keep in [false, true] {
        assert_eq!(Decimal::read_bin(&[0xE3], 2, 0, keep).unwrap().to_string(), "99");
        assert_eq!(Decimal::read_bin(&[0xE4], 2, 0, keep).unwrap_err(), Refusal::Group);
        for (precision, scale) in [(66, 0), (31, 31), (2, 3), (usize::MAX, 0), (1 << 32, 1 << 32)] {
            assert_eq!(Decimal::read_bin(&[0; 64], precision, scale, keep).unwrap_err(), Refusal::Range);
        }
    }
    assert_eq!(Decimal::read_bin(&[0x7F], 2, 0, true).unwrap().to_string(), "0");
    assert_eq!(Decimal::read_bin(&[0x7F], 2, 0, false).unwrap().to_string(), "0");
}

#[test]
fn a_zero_is_positive() {
    for (precision, scale, size) in [(1, 0, 1), (1, 1, 1), (2, 1, 2), (20, 5, 10), (65, 30, 30)] {
        let mut zero = [0xFF; 30];
        zero[0] = 0x7F;
        let read = Decimal::read_bin(&zero[..size], precision, scale, true).unwrap();
        assert_eq!(read.numbers()[..3], [(precision - scale) as u32, scale as u32, 0]);
        assert_eq!(read.numbers()[3..], [0; 9]);
        let mut back = [7; 30];
        assert_eq!(read.write_bin(&mut back), Ok(size));
        assert_eq!(back[0], 0x80);
        assert!(back[1..size].iter().all(|&byte| byte == 0) && back[size..].iter().all(|&byte| byte == 7));
        assert!(!Decimal::read_bin(&zero[..size], precision, scale, false).unwrap().to_string().contains('-'));
        // The last bit of the last byte away from zero, it is negative, and comes back as it was.
        zero[size - 1] ^= 1;
        let least = Decimal::read_bin(&zero[..size], precision, scale, true).unwrap();
        assert_eq!(least.numbers()[2], 1);
        assert_eq!(least.write_bin(&mut back), Ok(size));
        assert_eq!(back[..size], zero[..size]);
        assert_eq!(least.compare(&read), Ok(Less));
    }
    assert_eq!(Decimal::from_numbers([1, 1, 1, 0, 0, 0, 0, 0, 0, 0, 0, 0]).unwrap_err(), Refusal::Record);
    assert_eq!(Decimal::from_numbers([1, 1, 1, 0, 100_000_000, 0, 0, 0, 0, 0, 0, 0]).unwrap().to_string(), "-0.1");
    assert_eq!(Decimal::from_numbers([1, 0, 7, 5, 0, 0, 0, 0, 0, 0, 0, 0]).unwrap().numbers()[2], 1);
}

#[test]
fn texts() {
    assert_eq!(parsed("007").to_string(), "7");
    assert_eq!(parsed(".5").to_string(), "0.5");
    assert_eq!(parsed(&"0".repeat(66)).to_string(), "0");
    for text in [".", "", "-", "1 ", "1e5", "00-5", "1.2.3", "é"] {
        assert_eq!(Decimal::parse_str_bytes(text.as_bytes()).unwrap_err(), Refusal::Text, "{text}");
    }
    for text in [format!("-{}", "0".repeat(66)), "1".repeat(66), format!(".{}", "0".repeat(31))] {
        assert_eq!(Decimal::parse_str_bytes(text.as_bytes()).unwrap_err(), Refusal::Digits, "{text}");
    }
}

#[test]
fn order_is_by_value() {
    for (left, right, order) in
        [("9", "100", Less), ("100", "9", Greater), ("1", "1.0", Equal), ("-1", ".5", Less), ("-1", "-2", Greater), ("1", ".1", Greater)]
    {
        assert_eq!(parsed(left).compare(&parsed(right)), Ok(order), "{left} {right}");
    }
    let zero = Decimal::read_bin(&[0x7F], 2, 0, true).unwrap();
    assert_eq!(zero.compare(&parsed("0")), Ok(Equal));
}

/// A printed text without what does not tell the value: zeros at the front of the integral part and at the end of the fraction, and then a last point.
fn plain(text: &str) -> String {
    let (sign, number) = text.strip_prefix('-').map_or(("", text), |number| ("-", number));
    let (integral, fraction) = number.split_once('.').unwrap_or((number, ""));
    let (integral, fraction) = (integral.trim_start_matches('0'), fraction.trim_end_matches('0'));
    let point = if fraction.is_empty() { "" } else { "." };
    format!("{sign}{integral}{point}{fraction}")
}

/// The same decimal with its sign changed; a zero stays as it is.
fn negated(decimal: &Decimal) -> Decimal {
    let mut numbers = decimal.numbers();
    if numbers[3..].iter().any(|&group| group != 0) {
        numbers[2] ^= 1;
    }
    Decimal::from_numbers(numbers).unwrap()
}

#[test]
fn order_is_an_order() {
    let texts = "0 0.0 000000000.0 1 1.0 10 100 100.00 9 7.5 -000000007.50 -7.5 0.05 0.5 -0.5 999999999 1000000000";
    let mut all: Vec<Decimal> = texts.split(' ').map(parsed).collect();
    // With kept precision and two groups before the point there are zeros at the front of the text.
    for (bytes, text) in [
        ([0x80, 0, 0, 0, 7, 50], "0000000007.50"),
        ([0x7F, 0xFF, 0xFF, 0xFF, 0xF8, 0xCD], "-0000000007.50"),
        ([0x80, 0, 0, 0, 0, 0], "0000000000.00"),
    ] {
        all.push(Decimal::read_bin(&bytes, 12, 2, true).unwrap());
        assert_eq!(all[all.len() - 1].to_string(), text);
    }
    let mut equal = 0;
    for a in &all {
        assert_eq!(a.compare(a), Ok(Equal), "{a}");
        for b in &all {
            let order = a.compare(b).unwrap();
            assert_eq!(b.compare(a), Ok(order.reverse()), "{b} {a}");
            assert_eq!(negated(a).compare(&negated(b)), Ok(order.reverse()), "-({a}) -({b})");
            assert_eq!(order == Equal, plain(&a.to_string()) == plain(&b.to_string()), "{a} {b}");
            equal += usize::from(order == Equal);
            for c in &all {
                let carries = order.is_le() && b.compare(c).unwrap().is_le();
                assert!(!carries || a.compare(c).unwrap().is_le(), "{a} {b} {c}");
            }
        }
    }
    // 0 stands there four ways, 1, 100 and 7.5 two ways, -7.5 three, and seven others once.
    assert_eq!(equal, 4 * 4 + 3 * 2 * 2 + 3 * 3 + 7);
    let mut marks = ["100", "9", "-2", "9.50", "0.5", "-10"].map(parsed);
    marks.sort_by(|a, b| a.compare(b).expect("decimals"));
    assert_eq!(marks.map(|mark| mark.to_string()), ["-10", "-2", "0.5", "9", "9.50", "100"]);
}

#[test]
fn written_bytes() {
    let price = parsed("12.34");
    let mut out = [7; 4];
    assert_eq!(price.write_bin(&mut out), Ok(2));
    assert_eq!(out, [0x8C, 0x22, 7, 7]);
    assert_eq!(price.bin_size(), Ok(2));
    let mut short = [7];
    assert_eq!(price.write_bin(&mut short), Err(Refusal::Room));
    assert_eq!(short, [7]);
    let mut text = [7; 6];
    assert_eq!(price.print(&mut text), Ok(5));
    assert_eq!(&text, b"12.34\x07");
    let mut short = [7; 4];
    assert_eq!(price.print(&mut short), Err(Refusal::Room));
    assert_eq!(short, [7; 4]);
    // A decimal is written and read again with as many digits before the point as one to 35 nines, and as many after it as thirty.
    for intg in 1..=35 {
        for frac in [0, 1, 8, 9, 10, 29, 30] {
            for sign in ["", "-"] {
                let text = format!("{sign}{}{}{}", "9".repeat(intg), if frac > 0 { "." } else { "" }, "9".repeat(frac));
                let decimal = parsed(&text);
                let mut out = [0; bratthelm::decimal::BYTES_MAX];
                let count = decimal.write_bin(&mut out).unwrap();
                let again = Decimal::read_bin(&out[..count], intg + frac, frac, true).unwrap();
                assert_eq!(again.numbers(), decimal.numbers());
                assert_eq!(again.to_string(), text);
                assert_eq!(Decimal::read_bin(&out[..count - 1], intg + frac, frac, true).unwrap_err(), Refusal::Short);
            }
        }
    }
}

#[test]
fn decimals_by_their_numbers() {
    let numbers = [10, 1, 0, 1, 234_567_890, 500_000_000, 0, 0, 0, 0, 0, 0];
    assert_eq!(parsed("1234567890.5").numbers(), numbers);
    assert_eq!(Decimal::from_numbers(numbers).unwrap().to_string(), "1234567890.5");
    let changed = |at: usize, to: u32| {
        let mut numbers = numbers;
        numbers[at] = to;
        Decimal::from_numbers(numbers).map(|d| d.to_string())
    };
    assert_eq!(changed(2, 1), Ok("-1234567890.5".into()));
    // Digits out of range, a group out of range, a last group that is not filled with zeros, an unused group that is not 0.
    for (at, to) in [(0, 65), (0, u32::MAX), (1, 31), (3, 10), (4, 1_000_000_000), (5, 500_000_001), (11, 1)] {
        assert_eq!(changed(at, to), Err(Refusal::Record), "{at} {to}");
    }
    assert_eq!(Decimal::from_numbers([0; 12]).unwrap_err(), Refusal::Record);
}

#[test]
fn display_meets_a_width_and_leaves_no_digit_out() {
    let price = parsed("-12.34");
    assert_eq!(format!("[{price}] [{price:8}] [{price:<8}] [{price:08}] [{price:.1}]"), "[-12.34] [  -12.34] [-12.34  ] [-0012.34] [-12.34]");
    let price = parsed("12.34");
    assert_eq!(format!("[{price}] [{price:8}] [{price:<8}] [{price:08}] [{price:.1}]"), "[12.34] [   12.34] [12.34   ] [00012.34] [12.34]");
    assert_eq!(Refusal::Utf8.to_string(), "9: a key or a string is not UTF-8");
    let stopped = Stopped { refusal: Refusal::Utf8, place: 17, count: 1 };
    assert_eq!(stopped.to_string(), "9: a key or a string is not UTF-8, at byte 17, after 1 events");
}

/// The numbers and names are those of the header.
#[test]
fn refusals_are_the_header_s() {
    let header = include_str!("../../include/bratthelm.h");
    let mut found = Vec::new();
    for line in header.lines() {
        if let Some((name, rest)) = line.trim().strip_prefix("BRATTHELM_ERR_").and_then(|rest| rest.split_once(" = ")) {
            let digits: String = rest.chars().take_while(char::is_ascii_digit).collect();
            found.push((name.to_string(), digits.parse().unwrap()));
        }
    }
    let ours: Vec<_> = Refusal::ALL.iter().map(|refusal| (format!("{refusal:?}").to_uppercase(), refusal.number())).collect();
    assert_eq!(ours, found);
    for number in 0..300 {
        let refusal = Refusal::from_number(number);
        assert_eq!(refusal.is_some(), matches!(number, 1..=13 | 20..=26));
        assert_eq!(refusal.map_or(number, Refusal::number), number);
    }
}
