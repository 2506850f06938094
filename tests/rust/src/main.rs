//! Reads requests from standard input, one to a line, and writes one line for each: what the Rust original answers. The requests are those of the
//! program `answers`, and `j`; answer.rs tells how each is asked of the original, and which cannot be.
//!
//! Where the original panics the answer is `panic`. It can also end the whole process (its `parse` calls itself once a level and keeps all that it
//! has read, so a document can use up stack, memory or time). So the requests are answered in a second process of this program, the worker, on a
//! stack far larger than the deepest document in a line needs, with a bound on memory and on the time for one request. When the worker ends early, a
//! new one is started, the request that ended the first is answered `abort`, and the run goes on. There is no bound on depth: the original has none.

mod answer;

use std::{
    alloc::{GlobalAlloc, Layout, System},
    env,
    io::{self, BufRead, BufReader, BufWriter, Read, Write},
    panic,
    process::{self, Child, ChildStdin, ChildStdout, Command, Stdio},
    ptr,
    sync::atomic::{AtomicUsize, Ordering::Relaxed},
    thread,
    time::Duration,
};

/// The longest line, its end included.
const LONGEST: usize = 65_536;
/// Lines are handed to the worker in batches of about so many bytes.
const BATCH: usize = 1 << 18;
const STACK: usize = 1 << 28;
const SECONDS: u32 = 10;

fn main() {
    let arguments: Vec<String> = env::args().skip(1).collect();
    let done = match arguments.iter().map(String::as_str).collect::<Vec<_>>()[..] {
        [] => keep(),
        ["worker"] => thread::Builder::new().stack_size(STACK).spawn(work).and_then(|worker| worker.join().unwrap()),
        _ => Err(io::Error::other("it takes no arguments: requests come on standard input")),
    };
    if let Err(fault) = done {
        eprintln!("answers: {fault}");
        process::exit(2);
    }
}

// The first process: lines in, lines out.

struct Worker {
    child: Child,
    requests: BufWriter<ChildStdin>,
    answers: BufReader<ChildStdout>,
}

impl Worker {
    fn start() -> io::Result<Self> {
        let mut command = Command::new(env::current_exe()?);
        let mut child = command.arg("worker").stdin(Stdio::piped()).stdout(Stdio::piped()).stderr(Stdio::null()).spawn()?;
        let requests = BufWriter::new(child.stdin.take().unwrap());
        let answers = BufReader::with_capacity(BATCH, child.stdout.take().unwrap());
        Ok(Self { child, requests, answers })
    }

    /// The answers to a batch: a line of their length in bytes, then they themselves. The worker reads the whole batch before it writes, so that
    /// the two never wait for each other.
    fn ask(&mut self, lines: &[Vec<u8>]) -> io::Result<Vec<u8>> {
        writeln!(self.requests, "{}", lines.len())?;
        for line in lines {
            self.requests.write_all(line)?;
            self.requests.write_all(b"\n")?;
        }
        self.requests.flush()?;
        let mut answers = vec![0; read_number(&mut self.answers)?.ok_or(io::ErrorKind::UnexpectedEof)?];
        self.answers.read_exact(&mut answers)?;
        Ok(answers)
    }

    fn replace(&mut self) -> io::Result<()> {
        let mut old = std::mem::replace(self, Self::start()?);
        let _ = old.child.kill();
        old.child.wait().map(drop)
    }
}

/// The number on the next line, nothing at the end.
fn read_number(from: &mut impl BufRead) -> io::Result<Option<usize>> {
    let mut line = String::new();
    from.read_line(&mut line)?;
    match line.strip_suffix('\n') {
        Some(digits) => digits.parse().map(Some).map_err(io::Error::other),
        None => Ok(None),
    }
}

/// Answers all lines of a batch, and leaves it empty.
fn settle(worker: &mut Worker, lines: &mut Vec<Vec<u8>>, out: &mut impl Write) -> io::Result<()> {
    if !lines.is_empty() {
        match worker.ask(lines) {
            Ok(answers) => out.write_all(&answers)?,
            // One of them ended the worker: they are asked again, each on its own.
            Err(_) => {
                worker.replace()?;
                for line in lines.iter() {
                    match worker.ask(std::slice::from_ref(line)) {
                        Ok(answer) => out.write_all(&answer)?,
                        Err(_) => {
                            out.write_all(b"abort\n")?;
                            worker.replace()?;
                        }
                    }
                }
            }
        }
        lines.clear();
    }
    out.flush()
}

enum Line {
    End,
    Long,
    Line(Vec<u8>),
}

fn read_line(from: &mut impl BufRead) -> io::Result<Line> {
    let mut line = Vec::new();
    from.by_ref().take(LONGEST as u64).read_until(b'\n', &mut line)?;
    if line.last() == Some(&b'\n') {
        line.pop();
        return Ok(Line::Line(line));
    }
    if line.len() < LONGEST {
        return Ok(if line.is_empty() { Line::End } else { Line::Line(line) });
    }
    from.skip_until(b'\n')?;
    Ok(Line::Long)
}

fn keep() -> io::Result<()> {
    let mut input = BufReader::with_capacity(BATCH, io::stdin().lock());
    let mut out = BufWriter::with_capacity(BATCH, io::stdout().lock());
    let mut worker = Worker::start()?;
    let mut lines = Vec::new();
    let mut size = 0;
    loop {
        // What has come in so far is answered before more is waited for.
        if input.buffer().is_empty() || size >= BATCH {
            settle(&mut worker, &mut lines, &mut out)?;
            size = 0;
        }
        match read_line(&mut input)? {
            Line::Line(line) => {
                size += line.len() + 1;
                lines.push(line);
            }
            Line::Long => {
                settle(&mut worker, &mut lines, &mut out)?;
                out.write_all(b"long\n")?;
            }
            Line::End => break,
        }
    }
    settle(&mut worker, &mut lines, &mut out)?;
    drop((worker.requests, worker.answers));
    worker.child.wait().map(drop)
}

// The worker.

/// Odd while a request is being answered; each change is a step.
static STEPS: AtomicUsize = AtomicUsize::new(0);

fn work() -> io::Result<()> {
    panic::set_hook(Box::new(|_| {}));
    thread::spawn(watch);
    let mut input = BufReader::with_capacity(BATCH, io::stdin().lock());
    let mut out = io::stdout().lock();
    while let Some(count) = read_number(&mut input)? {
        let mut lines = Vec::new();
        for _ in 0..count {
            let mut line = Vec::new();
            input.read_until(b'\n', &mut line)?;
            line.pop();
            lines.push(line);
        }
        let mut answers = Vec::new();
        for line in &lines {
            STEPS.fetch_add(1, Relaxed);
            let answer = panic::catch_unwind(|| answer::answer(line));
            answers.extend_from_slice(answer.as_deref().unwrap_or("panic").as_bytes());
            answers.push(b'\n');
            STEPS.fetch_add(1, Relaxed);
        }
        writeln!(out, "{}", answers.len())?;
        out.write_all(&answers)?;
        out.flush()?;
    }
    Ok(())
}

/// Ends the worker when one request takes too long.
fn watch() {
    let mut seen = 0;
    let mut seconds = 0;
    loop {
        thread::sleep(Duration::from_secs(1));
        let now = STEPS.load(Relaxed);
        seconds = if now == seen && now % 2 == 1 { seconds + 1 } else { 0 };
        seen = now;
        if seconds == SECONDS {
            process::abort();
        }
    }
}

/// The memory of both processes: at most `MOST` bytes at once. A block of `LARGE` or more is to be had zeroed alone, and is not counted: reading
/// a decimal of a precision in the billions asks for one, and gives it back untouched when the bytes end.
struct Bounded;

const MOST: usize = 1 << 29;
const LARGE: usize = 1 << 28;
static USED: AtomicUsize = AtomicUsize::new(0);

fn take(size: usize) -> bool {
    if size < LARGE && USED.fetch_add(size, Relaxed) + size <= MOST {
        return true;
    }
    give(size);
    false
}

fn give(size: usize) {
    if size < LARGE {
        USED.fetch_sub(size, Relaxed);
    }
}

// SAFETY: every block is the system's own; the rest is counting.
unsafe impl GlobalAlloc for Bounded {
    unsafe fn alloc(&self, layout: Layout) -> *mut u8 {
        if take(layout.size()) { unsafe { System.alloc(layout) } } else { ptr::null_mut() }
    }

    unsafe fn alloc_zeroed(&self, layout: Layout) -> *mut u8 {
        if layout.size() >= LARGE || take(layout.size()) { unsafe { System.alloc_zeroed(layout) } } else { ptr::null_mut() }
    }

    unsafe fn dealloc(&self, block: *mut u8, layout: Layout) {
        unsafe { System.dealloc(block, layout) };
        give(layout.size());
    }

    unsafe fn realloc(&self, block: *mut u8, layout: Layout, size: usize) -> *mut u8 {
        if !take(size) {
            return ptr::null_mut();
        }
        give(layout.size());
        unsafe { System.realloc(block, layout, size) }
    }
}

#[global_allocator]
static MEMORY: Bounded = Bounded;
