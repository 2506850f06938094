//! Gives the same documents and decimals to our archive and to the Rust original.
//!
//!     bench write FOLDER                  writes the documents there, and sees that both sides answer alike
//!     bench time FOLDER                   nanoseconds a call
//!     bench run FOLDER CASE SIDE TIMES    makes one side's call so often, for a program that counts instructions
//!     bench memory FOLDER                 blocks taken from the heap and the most bytes held at once; built with `--cfg counted`
//!     bench stack FOLDER                  the stack of each side in the deepest documents
//!
//! Each prints a line for each case: its name and numbers, ours before the original's.
#![allow(unexpected_cfgs)]
#![cfg_attr(not(counted), allow(dead_code))]

mod documents;
mod listing;
mod ours;

use std::{
    arch,
    cmp::Ordering,
    env,
    fmt::Write,
    fs,
    hint::black_box,
    path::Path,
    process, ptr,
    sync::atomic::{AtomicUsize, Ordering::Relaxed},
    thread,
};

use mysql_common::binlog::decimal::Decimal;

const DOCUMENTS: [(&str, fn() -> Vec<u8>); 6] = [
    ("settings", documents::settings),
    ("large", documents::large),
    ("longest", documents::longest),
    ("accents", documents::accents),
    ("ascii", documents::ascii),
    ("shared", documents::shared),
];

/// Precision, scale, a number of so many digits, and the next larger one.
const DECIMALS: [(u8, u8, &str, &str); 3] = [
    (4, 2, "12.34", "12.35"),
    (20, 6, "12345678901234.567891", "12345678901234.567892"),
    (
        65,
        30,
        "98765432109876543210987654321098765.123456789012345678901234567891",
        "98765432109876543210987654321098765.123456789012345678901234567892",
    ),
];

fn main() {
    let arguments: Vec<String> = env::args().skip(1).collect();
    match arguments.iter().map(String::as_str).collect::<Vec<_>>()[..] {
        ["write", folder] => write(Path::new(folder)),
        ["time", folder] => cases(Path::new(folder), &mut Time),
        ["run", folder, case, side, times] => {
            let mut run = Run { case, ours: side == "ours", times: times.parse().unwrap(), found: false };
            cases(Path::new(folder), &mut run);
            assert!(run.found, "no case {case}");
        }
        ["memory", folder] => cases(Path::new(folder), &mut Memory),
        ["stack", folder] => stack(Path::new(folder)),
        _ => {
            eprintln!("usage: bench write|time|memory|stack FOLDER, or bench run FOLDER CASE ours|rust TIMES");
            process::exit(2);
        }
    }
}

/// What is done with the two sides of a case.
trait Measure {
    fn wants(&self, _case: &str) -> bool {
        true
    }

    fn measure<A, B>(&mut self, case: &str, ours: impl FnMut() -> A, rust: impl FnMut() -> B);
}

/// Room for the events of a document: each has an entry of its own, of three bytes or more, but for the root.
fn room(doc: &[u8]) -> Vec<u32> {
    vec![0; listing::WIDE * (doc.len() / 3 + 1)]
}

fn cases(folder: &Path, measure: &mut impl Measure) {
    for (name, _) in DOCUMENTS {
        if measure.wants(name) {
            let doc = fs::read(folder.join(name)).unwrap();
            let (mut left, mut right) = (room(&doc), room(&doc));
            measure.measure(
                name,
                || ours::walk(black_box(&doc), black_box(&mut left)).unwrap(),
                || listing::list(black_box(&doc), black_box(&mut right)).unwrap(),
            );
        }
    }
    for (precision, scale, text, next) in DECIMALS {
        let case = |call: &str| format!("{call}({precision},{scale})");
        let rust = Decimal::parse_str_bytes(text.as_bytes()).unwrap();
        let rust_next = Decimal::parse_str_bytes(next.as_bytes()).unwrap();
        let (mut row, mut row_next, mut read) = ([0; 12], [0; 12], [0; 12]);
        ours::parse(text.as_bytes(), &mut row).unwrap();
        ours::parse(next.as_bytes(), &mut row_next).unwrap();
        let packed = packed(precision, scale, &rust);
        let text = text.as_bytes();
        let (mut out, mut shown) = ([0; 67], String::with_capacity(67));
        let (mut bytes, mut written) = ([0; 36], Vec::with_capacity(36));

        let name = case("read");
        if measure.wants(&name) {
            measure.measure(
                &name,
                || ours::read_packed(black_box(&packed), black_box(&mut read)).unwrap(),
                || Decimal::read_packed(black_box(&packed[..]), false).unwrap(),
            );
        }
        let name = case("print");
        if measure.wants(&name) {
            measure.measure(
                &name,
                || ours::print(black_box(&row), black_box(&mut out)).unwrap(),
                || {
                    shown.clear();
                    write!(black_box(&mut shown), "{}", black_box(&rust)).unwrap();
                },
            );
        }
        let name = case("compare");
        if measure.wants(&name) {
            measure.measure(&name, || ours::compare(black_box(&row), black_box(&row_next)).unwrap(), || black_box(&rust).cmp(black_box(&rust_next)));
        }
        let name = case("write");
        if measure.wants(&name) {
            measure.measure(
                &name,
                || ours::write_bin(black_box(&row), black_box(&mut bytes)).unwrap(),
                || {
                    written.clear();
                    black_box(&rust).write_bin(black_box(&mut written)).unwrap();
                },
            );
        }
        let name = case("parse");
        if measure.wants(&name) {
            measure.measure(
                &name,
                || ours::parse(black_box(text), black_box(&mut read)).unwrap(),
                || Decimal::parse_str_bytes(black_box(text)).unwrap(),
            );
        }
    }
}

/// The packed form of a decimal that has all the digits of this precision and scale.
fn packed(precision: u8, scale: u8, decimal: &Decimal) -> Vec<u8> {
    let mut packed = vec![precision, scale];
    decimal.write_bin(&mut packed).unwrap();
    packed
}

// Both sides answer alike.

/// How many events both sides list, the same ones.
fn same_events(name: &str, doc: &[u8]) -> usize {
    let (mut left, mut right) = (room(doc), room(doc));
    let ours = ours::walk(doc, &mut left).unwrap_or_else(|number| panic!("{name}: refused by {number}"));
    let rust = listing::list(doc, &mut right).unwrap_or_else(|_| panic!("{name}: the original refuses it"));
    assert!(ours == rust && left[..listing::WIDE * ours] == right[..listing::WIDE * rust], "{name}: the events differ");
    ours
}

fn write(folder: &Path) {
    for (name, made) in DOCUMENTS {
        let doc = made();
        let values = same_events(name, &doc);
        fs::write(folder.join(name), &doc).unwrap();
        println!("{name} {} {values}", doc.len());
    }
    for (precision, scale, text, next) in DECIMALS {
        let rust = Decimal::parse_str_bytes(text.as_bytes()).unwrap();
        let rust_next = Decimal::parse_str_bytes(next.as_bytes()).unwrap();
        let packed = packed(precision, scale, &rust);
        let (mut row, mut row_next, mut read) = ([0; 12], [0; 12], [0; 12]);
        ours::parse(text.as_bytes(), &mut row).unwrap();
        ours::parse(next.as_bytes(), &mut row_next).unwrap();
        ours::read_packed(&packed, &mut read).unwrap();
        assert_eq!(row, read);
        assert_eq!(Decimal::read_packed(&packed[..], false).unwrap().to_string(), text);
        let (mut shown, mut bytes) = ([0; 67], [0; 36]);
        let length = ours::print(&row, &mut shown).unwrap();
        assert_eq!(&shown[..length], rust.to_string().as_bytes());
        let length = ours::write_bin(&row, &mut bytes).unwrap();
        assert_eq!(bytes[..length], packed[2..]);
        assert_eq!(ours::compare(&row, &row_next), Ok(0));
        assert_eq!(rust.cmp(&rust_next), Ordering::Less);
    }
}

// Time: rounds of many calls, the two sides by turns, and of each side's rounds the middle one. It is the processor's time for this thread, so that
// what else the machine does is not in it.

struct Time;

/// What a round takes at least, in nanoseconds.
const ROUND: f64 = 5e6;
const ROUNDS: usize = 25;

#[repr(C)]
struct Span {
    seconds: i64,
    nanoseconds: i64,
}

unsafe extern "C" {
    fn clock_gettime(clock: i32, time: *mut Span) -> i32;
}

fn now() -> f64 {
    const THREAD: i32 = 3;
    let mut time = Span { seconds: 0, nanoseconds: 0 };
    // SAFETY: the C library writes two numbers, and this is room for them.
    assert_eq!(unsafe { clock_gettime(THREAD, &mut time) }, 0);
    1e9 * time.seconds as f64 + time.nanoseconds as f64
}

impl Measure for Time {
    fn measure<A, B>(&mut self, case: &str, mut ours: impl FnMut() -> A, mut rust: impl FnMut() -> B) {
        let (many_ours, many_rust) = (calls_in_a_round(&mut ours), calls_in_a_round(&mut rust));
        let mut rounds = [Vec::new(), Vec::new()];
        for round in 0..ROUNDS {
            if round % 2 == 0 {
                rounds[0].push(nanoseconds(&mut ours, many_ours));
                rounds[1].push(nanoseconds(&mut rust, many_rust));
            } else {
                rounds[1].push(nanoseconds(&mut rust, many_rust));
                rounds[0].push(nanoseconds(&mut ours, many_ours));
            }
        }
        let [ours, rust] = rounds.map(|mut side| {
            side.sort_by(f64::total_cmp);
            side[ROUNDS / 2]
        });
        println!("{case} {ours:.2} {rust:.2}");
    }
}

/// What one call takes, of so many.
fn nanoseconds<A>(call: &mut impl FnMut() -> A, times: usize) -> f64 {
    let start = now();
    repeat(call, times);
    (now() - start) / times as f64
}

fn calls_in_a_round<A>(call: &mut impl FnMut() -> A) -> usize {
    let mut times = 1;
    loop {
        if nanoseconds(call, times) * times as f64 >= ROUND {
            return times;
        }
        times *= 2;
    }
}

// Instructions: nothing but the calls, counted from outside.

struct Run<'a> {
    case: &'a str,
    ours: bool,
    times: usize,
    found: bool,
}

impl Measure for Run<'_> {
    fn wants(&self, case: &str) -> bool {
        case == self.case
    }

    fn measure<A, B>(&mut self, _case: &str, mut ours: impl FnMut() -> A, mut rust: impl FnMut() -> B) {
        self.found = true;
        if self.ours {
            repeat(&mut ours, self.times);
        } else {
            repeat(&mut rust, self.times);
        }
    }
}

#[inline(never)]
fn repeat<A>(call: &mut impl FnMut() -> A, times: usize) {
    for _ in 0..times {
        black_box(&call());
    }
}

// Memory: every block of the heap passes through here where this is built to count them.

struct Counted;

static BLOCKS: AtomicUsize = AtomicUsize::new(0);
static HELD: AtomicUsize = AtomicUsize::new(0);
static MOST: AtomicUsize = AtomicUsize::new(0);

#[cfg(counted)]
#[global_allocator]
static MEMORY: Counted = Counted;

// SAFETY: every block is the system's own; the rest is counting.
unsafe impl std::alloc::GlobalAlloc for Counted {
    unsafe fn alloc(&self, layout: std::alloc::Layout) -> *mut u8 {
        BLOCKS.fetch_add(1, Relaxed);
        MOST.fetch_max(HELD.fetch_add(layout.size(), Relaxed) + layout.size(), Relaxed);
        unsafe { std::alloc::System.alloc(layout) }
    }

    unsafe fn dealloc(&self, block: *mut u8, layout: std::alloc::Layout) {
        HELD.fetch_sub(layout.size(), Relaxed);
        unsafe { std::alloc::System.dealloc(block, layout) }
    }
}

struct Memory;

impl Measure for Memory {
    fn measure<A, B>(&mut self, case: &str, mut ours: impl FnMut() -> A, mut rust: impl FnMut() -> B) {
        assert!(cfg!(counted), "this program is not built to count memory");
        let (our_blocks, our_most) = heap(&mut ours);
        let (rust_blocks, rust_most) = heap(&mut rust);
        println!("{case} {our_blocks} {our_most} {rust_blocks} {rust_most}");
    }
}

fn heap<A>(call: &mut impl FnMut() -> A) -> (usize, usize) {
    let (blocks, held) = (BLOCKS.load(Relaxed), HELD.load(Relaxed));
    MOST.store(held, Relaxed);
    black_box(&call());
    (BLOCKS.load(Relaxed) - blocks, MOST.load(Relaxed) - held)
}

// Stack: it is filled with a pattern below the caller, and after the call the lowest byte is sought that the pattern has left.

const PATTERN: u64 = 0xA5C3_96E1_5A3C_691E;
const FILLED: usize = 1 << 20;
/// The filling function's own frame, which it must not fill.
const OWN: usize = 512;

fn stack(folder: &Path) {
    for (name, doc) in ["arrays", "objects", "turns"].into_iter().zip(documents::deepest()) {
        fs::write(folder.join(format!("deepest-{name}")), &doc).unwrap();
        let values = same_events(name, &doc);
        let doc: &'static [u8] = doc.leak();
        let ours = stack_of(move |events| ours::walk(doc, events).unwrap());
        let rust = stack_of(move |events| listing::list(doc, events).unwrap());
        println!("{name} {} {values} {ours} {rust}", doc.len());
    }
    for (name, doc) in ["objects-refused", "large-objects-refused"].into_iter().zip(documents::too_deep()) {
        let doc: &'static [u8] = doc.leak();
        let ours = stack_of(move |events| ours::walk(doc, events).map_or_else(|number| number as usize, |_| panic!("{name} is listed")));
        let rust = stack_of(move |events| listing::list(doc, events).map_or(0, |_| panic!("{name} is listed")));
        println!("{name} {} {} {ours} {rust}", doc.len(), documents::TOO_DEEP + 1);
    }
}

fn stack_of(call: impl FnOnce(&mut [u32]) -> usize + Send + 'static) -> usize {
    let run = move || {
        let mut events = vec![0; listing::WIDE * 128];
        let top: usize;
        // SAFETY: it reads the stack pointer and touches nothing.
        unsafe { arch::asm!("mov {}, rsp", out(reg) top) };
        fill(top);
        black_box(call(&mut events));
        used(top)
    };
    thread::Builder::new().stack_size(2 * FILLED).spawn(run).unwrap().join().unwrap()
}

// SAFETY of both: the thread's stack reaches further down than is filled, and nothing lives there while they run.

#[inline(never)]
fn fill(top: usize) {
    for at in (top - FILLED..top - OWN).step_by(8) {
        unsafe { ptr::write_volatile(at as *mut u64, PATTERN) };
    }
}

#[inline(never)]
fn used(top: usize) -> usize {
    let touched = |at: &usize| unsafe { ptr::read_volatile(*at as *const u64) } != PATTERN;
    (top - FILLED..top - OWN).step_by(8).find(touched).map_or(OWN, |at| top - at)
}
