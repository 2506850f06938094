//! What no safe type of the crate can ask: rows that are lent too few numbers, decimals of too few numbers, keys of arrays.
use bratthelm::calls;

const LIST: [u8; 11] = [0x02, 0x02, 0x00, 0x0A, 0x00, 0x04, 0x01, 0x00, 0x05, 0xFE, 0xFF];
const PRICE: [u32; 12] = [2, 2, 0, 12, 340_000_000, 0, 0, 0, 0, 0, 0, 0];

/// A function that takes so many numbers: with fewer it is refused by 25 and they stay, with more it leaves those behind.
fn room(width: usize, call: impl Fn(&mut [u32]) -> u32) {
    for len in 0..width {
        let mut answer = vec![7; len];
        assert_eq!(call(&mut answer), 25);
        assert_eq!(answer, vec![7; len]);
    }
    let mut exact = vec![7; width];
    let mut wide = vec![7; width + 3];
    assert_eq!(call(&mut exact), 0);
    assert_eq!(call(&mut wide), 0);
    assert_eq!(wide[..width], exact);
    assert_eq!(wide[width..], [7; 3]);
}

#[test]
fn short_answers() {
    room(5, |answer| calls::root(&LIST, answer));
    room(5, |answer| calls::elem_at(&LIST, 2, 1, 10, 2, 0, answer));
    room(3, |answer| calls::key_at(&[0, 0, 0, 4, 0], 0, 1, 4, 0, 0, answer));
    room(1, |answer| calls::element_count(&LIST, 2, 1, 10, 2, answer));
    room(2, |answer| calls::walk(&LIST, &mut [0; 27], answer));
    room(12, |answer| calls::decimal_read_bin(&[0x8C, 0x22], 4, 2, 1, answer));
    room(12, |answer| calls::decimal_read_packed(&[0x04, 0x02, 0x8C, 0x22], 1, answer));
    room(12, |answer| calls::decimal_parse(b"12.34", answer));
    room(1, |answer| calls::decimal_write_bin(&PRICE, &mut [0; 36], answer));
    room(1, |answer| calls::decimal_print(&PRICE, &mut [0; 67], answer));
    room(1, |answer| calls::decimal_compare(&PRICE, &PRICE, answer));
}

#[test]
fn room_comes_first() {
    let long = vec![0x0D; 16_777_217];
    assert_eq!(calls::root(&long, &mut [0; 4]), 25);
    assert_eq!(calls::root(&long, &mut [0; 5]), 1);
    assert_eq!(calls::elem_at(&long, 9, 9, 9, 9, 9, &mut [0; 4]), 25);
    assert_eq!(calls::elem_at(&long, 9, 9, 9, 9, 9, &mut [0; 5]), 1);
    assert_eq!(calls::key_at(&long, 9, 9, 9, 9, 9, &mut [0; 2]), 25);
    assert_eq!(calls::key_at(&long, 9, 9, 9, 9, 9, &mut [0; 3]), 1);
    assert_eq!(calls::element_count(&long, 9, 9, 9, 9, &mut []), 25);
    assert_eq!(calls::element_count(&long, 9, 9, 9, 9, &mut [0]), 1);
    let (mut events, mut bytes, mut text) = ([7; 27], [7; 36], [7; 67]);
    assert_eq!(calls::walk(&LIST, &mut events, &mut [0]), 25);
    assert_eq!(calls::decimal_write_bin(&PRICE, &mut bytes, &mut []), 25);
    assert_eq!(calls::decimal_print(&PRICE, &mut text, &mut []), 25);
    assert!(events == [7; 27] && bytes == [7; 36] && text == [7; 67]);
    assert_eq!(calls::decimal_parse(b".", &mut [0; 11]), 25);
    assert_eq!(calls::decimal_read_bin(&[], 99, 99, 0, &mut [0; 11]), 25);
    assert_eq!(calls::decimal_read_packed(&[], 0, &mut [0; 11]), 25);
    assert_eq!(calls::decimal_compare(&[], &[], &mut []), 25);
}

#[test]
fn decimals_of_too_few_numbers() {
    let (mut bytes, mut text, mut answer) = ([7; 36], [7; 67], [7; 3]);
    for len in 0..12 {
        assert_eq!(calls::decimal_write_bin(&PRICE[..len], &mut bytes, &mut answer), 26);
        assert_eq!(calls::decimal_print(&PRICE[..len], &mut text, &mut answer), 26);
        assert_eq!(calls::decimal_compare(&PRICE[..len], &PRICE, &mut answer), 26);
        assert_eq!(calls::decimal_compare(&PRICE, &PRICE[..len], &mut answer), 26);
    }
    // 26 comes before 25 of the bytes.
    assert_eq!(calls::decimal_write_bin(&[0; 12], &mut [], &mut answer), 26);
    assert_eq!(calls::decimal_print(&[0; 12], &mut [], &mut answer), 26);
    assert!(bytes == [7; 36] && text == [7; 67] && answer == [7; 3]);
}

#[test]
fn keys_of_an_array() {
    let mut answer = [7; 3];
    assert_eq!(calls::key_at(&LIST, 2, 1, 10, 2, 0, &mut answer), 13);
    assert_eq!(answer, [7; 3]);
}

#[test]
fn flags_and_signs_are_0_or_else_1() {
    let mut price = PRICE;
    let (mut text, mut count) = ([0; 67], [0]);
    for sign in [1, 2, u32::MAX] {
        price[2] = sign;
        assert_eq!(calls::decimal_print(&price, &mut text, &mut count), 0);
        assert_eq!(&text[..count[0] as usize], b"-12.34");
    }
    let mut kept = [[0; 12]; 4];
    for (keep, row) in [0, 1, 2, u32::MAX].into_iter().zip(&mut kept) {
        assert_eq!(calls::decimal_read_bin(&[0x7F], 2, 0, keep, row), 0);
    }
    assert_eq!(kept[0][..4], [1, 0, 0, 0]);
    assert_eq!(kept[1][..4], [2, 0, 0, 0]);
    assert!(kept[2] == kept[1] && kept[3] == kept[1]);
}
