//! The members of an object that are strings, and a price: prints 'a: Zoë' and '12.34', as the example in include/bratthelm.h does.
use bratthelm::{Decimal, Value};
use std::str::from_utf8;

fn main() -> Result<(), Box<dyn std::error::Error>> {
    let doc = b"\x00\x01\x00\x11\x00\x0B\x00\x01\x00\x0C\x0C\x00a\x04Zo\xC3\xAB";
    for member in Value::deserialize(doc)?.as_object().ok_or("no object")?.iter() {
        if let (key, Value::String(text)) = member? {
            println!("{}: {}", from_utf8(key.value_raw())?, from_utf8(text.str_raw())?);
        }
    }
    println!("{}", Decimal::read_packed(&[0x04, 0x02, 0x8C, 0x22], false)?);
    Ok(())
}
