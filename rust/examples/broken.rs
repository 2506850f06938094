//! Where a name breaks: the part of it that is whole, and the byte with which it does not go on.
use bratthelm::{walk, Event, Refusal, Value, EVENT_LEN};
use std::error::Error;
use std::str::from_utf8;

/// The path behind the events, as its container's event and its position there; `None` for the root.
fn path_after(events: &[Event]) -> Option<(Event, u32)> {
    let mut child = *events.last()?;
    if child.code <= 3 && child.extra > 0 {
        return Some((child, 0));
    }
    while child.depth > 0 {
        let container = events[child.parent as usize];
        if child.position + 1 < container.extra {
            return Some((container, child.position + 1));
        }
        child = container;
    }
    None
}

/// The text of that path that is not UTF-8: its key, else its string.
fn broken_text<'d>(doc: &'d [u8], events: &[Event]) -> Result<&'d [u8], Box<dyn Error>> {
    let mut value = Value::deserialize(doc)?;
    if let Some((container, position)) = path_after(events) {
        let part = container.part;
        let home = Value::container(doc, container.code, part.start, part.len, container.extra)?;
        if let Some(object) = home.as_object() {
            let key = object.key_at(position)?.ok_or("no member")?.value_raw();
            if from_utf8(key).is_err() {
                return Ok(key);
            }
            value = object.elem_at(position)?.ok_or("no member")?;
        } else if let Some(array) = home.as_array() {
            value = array.elem_at(position)?.ok_or("no element")?;
        }
    }
    match value {
        Value::String(text) => Ok(text.str_raw()),
        _ => Err("no text".into()),
    }
}

fn show(doc: &[u8]) -> Result<(), Box<dyn Error>> {
    let mut room = [0; 64 * EVENT_LEN];
    let listed = walk(doc, &mut room);
    let Err(stopped) = listed.end() else {
        println!("all of it is text");
        return Ok(());
    };
    if stopped.refusal != Refusal::Utf8 {
        return Err(stopped.into());
    }
    let events: Vec<Event> = listed.flatten().collect();
    let text = broken_text(doc, &events)?;
    let fault = from_utf8(text).err().ok_or("a text")?;
    let whole = from_utf8(&text[..fault.valid_up_to()])?;
    let place = stopped.place as usize;
    match fault.error_len() {
        None => println!("'{whole}', and then the text ends inside a character, at {place}"),
        Some(_) => println!("'{whole}', and then {:02X} at {place}", doc[place]),
    }
    Ok(())
}

fn main() -> Result<(), Box<dyn Error>> {
    show(b"\x00\x01\x00\x11\x00\x0B\x00\x01\x00\x0C\x0C\x00a\x04Zo\xC3\xAB")?;
    show(b"\x00\x01\x00\x11\x00\x0B\x00\x01\x00\x0C\x0C\x00a\x04Zo\xC3\x22")?;
    show(b"\x00\x01\x00\x11\x00\x0B\x00\x01\x00\x0C\x0C\x00a\x03Zo\xC3\xAB")?;
    show(b"\x00\x02\x00\x15\x00\x12\x00\x01\x00\x13\x00\x02\x00\x04\x01\x00\x04\x01\x00ab\xC3")
}
