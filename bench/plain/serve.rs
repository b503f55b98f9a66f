//! The other ends of `bench/serve`: callers and editors who go on as soon as they are answered, and what is set beside the server.
//!
//! | words | what it does |
//! |---|---|
//! | `ask PORT CONNECTIONS TURN SECONDS` | asks at this many connections at once, each of which is begun again after TURN asks |
//! | `echo PORT` | answers the same asks with the same bytes, in a thread for each connection |
//! | `edit PORT SECONDS ACCOUNT PAGE ..` | stores edits of these pages, each by an editor of its own, all at once |
//! | `seen CALLERS EDITORS SECONDS ACCOUNT PAGE` | stores an edit and asks for its page until it is shown, again and again |
//! | `file PATH SIZE SYNCS SECONDS` | appends records of a size to a file, each with one sync or with two |
//! | `load FILE ..` | reads journals, decodes their records and keeps them |
//!
//! `ask`, `echo` and `seen` have a plan on standard input: the exchanges that begin a connection, and those that are asked then.
//! How long each thing took is written to standard output, its nanoseconds in four bytes. `load` writes two times in seconds:
//! of the reading alone, and of all of it.
//! Build it by `rustc --edition 2021 -O`.

use std::collections::HashMap;
use std::fs::{self, File};
use std::hint::black_box;
use std::io::{self, BufRead, BufReader, Read, Write};
use std::net::{Shutdown, TcpListener, TcpStream};
use std::os::unix::fs::FileExt;
use std::sync::Barrier;
use std::thread;
use std::time::{Duration, Instant};

const PATIENCE: Duration = Duration::from_secs(20);
const ROOM: usize = 1 << 16;
/// A session has at most 4,096 lines, and an edit takes two.
const EDITS_OF_A_SESSION: usize = 2_000;
/// A call has at most 4,096 entries. A caller who looks for edits dials again once he had this many pages, and has at most as many
/// more for one edit.
const PAGES_OF_A_CALL: usize = 2_000;
/// The rest after an edit that was seen, so that all of its work is over before the next.
const REST: Duration = Duration::from_millis(2);

/// What is sent, and what comes back: any bytes, `skip` of them, and then the answer.
struct Exchange {
    sent: Vec<u8>,
    skip: usize,
    answer: Vec<u8>,
}

impl Exchange {
    /// Sends, waits for all that comes back, and compares the answer.
    fn happen(&self, stream: &mut TcpStream, room: &mut [u8]) {
        let heard = &mut room[..self.skip + self.answer.len()];
        if !self.sent.is_empty() {
            stream.write_all(&self.sent).expect("an ask is sent");
        }
        stream.read_exact(heard).expect("an answer comes");
        if heard[self.skip..] != self.answer {
            panic!("another answer than before: {}", String::from_utf8_lossy(&heard[self.skip..]));
        }
    }
}

/// What begins a connection, and what is asked then, in turn.
struct Plan {
    begin: Vec<Exchange>,
    asks: Vec<Exchange>,
}

impl Plan {
    /// Each line has `begin` or `ask`, what is sent, how much is skipped, and the answer. Bytes are in hexadecimal digits.
    fn read() -> Plan {
        let mut plan = Plan { begin: Vec::new(), asks: Vec::new() };
        for line in io::stdin().lines() {
            let line = line.expect("a plan");
            let words: Vec<&str> = line.split(' ').collect();
            let exchange = Exchange { sent: bytes_of(words[1]), skip: number(words[2]), answer: bytes_of(words[3]) };
            if words[0] == "begin" { &mut plan.begin } else { &mut plan.asks }.push(exchange);
        }
        plan
    }

    /// A connection that has begun.
    fn dial(&self, port: u16, room: &mut [u8]) -> TcpStream {
        let mut stream = connect(port);
        for exchange in &self.begin {
            exchange.happen(&mut stream, room);
        }
        stream
    }

    /// Asks at one connection after another until the time is over. How long each ask took that was answered by then.
    fn ask(&self, port: u16, first: usize, turn: usize, start: &Barrier, time: Duration) -> Vec<u32> {
        let (mut taken, mut room) = (Vec::with_capacity(1 << 20), vec![0; ROOM]);
        let mut stream = self.dial(port, &mut room);
        start.wait();
        let end = Instant::now() + time;
        loop {
            for at in 0..turn {
                let begun = Instant::now();
                self.asks[(first + at) % self.asks.len()].happen(&mut stream, &mut room);
                if Instant::now() > end {
                    hang_up(stream);
                    return taken;
                }
                taken.push(nanoseconds(begun));
            }
            hang_up(stream);
            stream = self.dial(port, &mut room);
        }
    }
}

/// Answers asks for ever.
fn echo(port: u16, plan: Plan) {
    let listener = TcpListener::bind(("127.0.0.1", port)).expect("a port");
    let exchanges = plan.begin.into_iter().chain(plan.asks);
    let answers: HashMap<Vec<u8>, Vec<u8>> = exchanges.map(|each| (each.sent, each.answer)).collect();
    thread::scope(|all| {
        for stream in listener.incoming() {
            let answers = &answers;
            all.spawn(move || answer(stream.expect("a connection"), answers));
        }
    });
}

/// Answers until the connection ends. What answers nothing is sent at the beginning.
fn answer(mut stream: TcpStream, answers: &HashMap<Vec<u8>, Vec<u8>>) {
    stream.set_nodelay(true).expect("no delay");
    let (mut room, mut count) = ([0; 256], 0);
    while let Some(answer) = answers.get(&room[..count]) {
        if stream.write_all(answer).is_err() {
            return;
        }
        count = stream.read(&mut room).unwrap_or(0);
        if count == 0 {
            return;
        }
    }
}

/// An editor who has logged on and opened a page.
struct Editor {
    line: BufReader<TcpStream>,
    edits: usize,
}

impl Editor {
    fn log_on(port: u16, account: &str, page: &str) -> Editor {
        let mut editor = Editor { line: BufReader::new(connect(port)), edits: 0 };
        let last = editor.says(&format!("LOGON {account} NEWS\nOPEN {page}\nLAST\n"), 3);
        editor.edits = number(&last[3..]);
        editor
    }

    /// Sends these lines at once, of which there are `count`, and returns the last reply.
    fn says(&mut self, lines: &str, count: usize) -> String {
        self.line.get_mut().write_all(lines.as_bytes()).expect("lines are sent");
        let mut reply = String::new();
        for _ in 0..count {
            reply.clear();
            self.line.read_line(&mut reply).expect("a reply comes");
            if !reply.starts_with("OK") {
                panic!("a line is refused: {reply}");
            }
        }
        reply.trim_end().to_string()
    }

    /// Stores the page with a row that says which edit it is, and returns how the row begins.
    fn store(&mut self) -> String {
        self.edits += 1;
        let (mark, edit) = (format!("EDIT {:09}", self.edits), self.edits);
        self.says(&format!("ROW 3 {mark:.<40}\nSTORE {edit}\n"), 2);
        mark
    }

    fn quit(mut self) {
        self.line.get_mut().write_all(b"QUIT\n").expect("a line is sent");
        self.line.read_to_end(&mut Vec::new()).expect("the session ends");
    }
}

/// Stores edits in one session after another until the time is over. How long each took.
fn edit(port: u16, account: &str, page: &str, start: &Barrier, time: Duration) -> Vec<u32> {
    let (mut taken, mut editor) = (Vec::new(), Editor::log_on(port, account, page));
    start.wait();
    let end = Instant::now() + time;
    loop {
        for _ in 0..EDITS_OF_A_SESSION {
            let begun = Instant::now();
            editor.store();
            if Instant::now() > end {
                editor.quit();
                return taken;
            }
            taken.push(nanoseconds(begun));
        }
        editor.quit();
        editor = Editor::log_on(port, account, page);
    }
}

/// Asks for a page again and again until it has this mark. How often that was.
fn look_for(mark: &str, ask: &Exchange, caller: &mut TcpStream, room: &mut [u8]) -> usize {
    let screen = &mut room[..ask.answer.len()];
    for asked in 1..=PAGES_OF_A_CALL {
        caller.write_all(&ask.sent).expect("an ask is sent");
        caller.read_exact(screen).expect("a page comes");
        if screen.windows(mark.len()).any(|part| part == mark.as_bytes()) {
            return asked;
        }
    }
    panic!("an edit was not seen in {PAGES_OF_A_CALL} pages");
}

/// Stores edits until the time is over. How long after the reply to each a caller had the whole page with it.
fn seen(callers: u16, editors: u16, plan: &Plan, time: Duration, account: &str, page: &str) -> Vec<u32> {
    let (mut taken, mut room, end) = (Vec::new(), vec![0; ROOM], Instant::now() + time);
    while Instant::now() < end {
        let (mut caller, mut editor, mut asked) = (plan.dial(callers, &mut room), Editor::log_on(editors, account, page), 0);
        while asked < PAGES_OF_A_CALL && Instant::now() < end {
            let mark = editor.store();
            let begun = Instant::now();
            asked += look_for(&mark, &plan.asks[0], &mut caller, &mut room);
            taken.push(nanoseconds(begun));
            thread::sleep(REST);
        }
        hang_up(caller);
        editor.quit();
    }
    taken
}

/// Appends records until the time is over. With two syncs each is written after a closed gate, which is opened then.
fn append(path: &str, size: usize, syncs: usize, time: Duration) -> Vec<u32> {
    let (file, record) = (File::create(path).expect("a file"), vec![0; size]);
    let (mut taken, mut gate, end) = (Vec::new(), 0, Instant::now() + time);
    loop {
        let begun = Instant::now();
        file.write_all_at(&record, gate + 1).expect("a record is written");
        file.sync_data().expect("a sync");
        if syncs == 2 {
            file.write_all_at(&[1], gate).expect("a gate is opened");
            file.sync_data().expect("a sync");
        }
        if Instant::now() > end {
            return taken;
        }
        taken.push(nanoseconds(begun));
        gate += size as u64;
    }
}

type Name = [u8; 5];

/// What a record of a journal says: which frame was put, or anything else.
#[allow(dead_code)]
enum Record {
    Put { editor: u64, number: u32, name: Name, frame: Frame },
    Other(Vec<u8>),
}

#[allow(dead_code)]
struct Frame {
    cells: [u8; 904],
    kind: u8,
    routes: [u32; 10],
    price: u8,
    group: u16,
    fields: Vec<u8>,
}

impl Frame {
    /// The frame of these bytes, if they are one.
    fn of(text: &[u8]) -> Option<Frame> {
        let cells: [u8; 904] = text.get(1..905)?.try_into().ok()?;
        let (kind, price, routes) = (*text.get(905)?, *text.get(946)?, text[906..946].chunks_exact(4));
        let is_valid = text[0] == 1 && cells.iter().all(|cell| *cell < 128) && kind < 3 && price < 100;
        let mut frame = Frame { cells, kind, routes: [0; 10], price, group: 0, fields: text.get(949..)?.to_vec() };
        frame.group = u16::from_be_bytes([text[947], text[948]]);
        for (route, digits) in frame.routes.iter_mut().zip(routes) {
            *route = u32::from_be_bytes(digits.try_into().ok()?);
        }
        is_valid.then_some(frame)
    }
}

/// The records of a journal, and which is the latest of each name.
#[derive(Default)]
struct Loaded {
    records: Vec<Record>,
    latest: HashMap<Name, usize>,
}

impl Loaded {
    /// Each body stands after an open gate and its length, and a closed gate ends them.
    fn of(text: &[u8], is_centre: bool) -> Loaded {
        let (mut loaded, mut rest) = (Loaded::default(), text.strip_prefix(b"PVJOURN1").expect("a journal"));
        while let [1, high, low, later @ ..] = rest {
            let (body, later) = later.split_at(u16::from_be_bytes([*high, *low]) as usize);
            // A centre's record of a frame has its place before it.
            let record = if is_centre && body[0] == 1 { &body[9..] } else { body };
            let record = loaded.put_of(record).unwrap_or_else(|| Record::Other(body.to_vec()));
            loaded.records.push(record);
            rest = later;
        }
        loaded
    }

    /// The record of these bytes, if it puts a frame, which is the latest of its name then.
    fn put_of(&mut self, record: &[u8]) -> Option<Record> {
        if record[0] != 1 {
            return None;
        }
        let name: Name = record.get(13..18)?.try_into().ok()?;
        let frame = Frame::of(&record[18..])?;
        self.latest.insert(name, self.records.len());
        let (editor, number) = (u64::from_be_bytes(record[1..9].try_into().ok()?), u32::from_be_bytes(record[9..13].try_into().ok()?));
        Some(Record::Put { editor, number, name, frame })
    }
}

/// Writes how long it takes to read these files, and to read, decode and keep them.
fn load(paths: &[String]) {
    let begun = Instant::now();
    let texts: Vec<Vec<u8>> = paths.iter().map(|path| fs::read(path).expect("a file")).collect();
    let read = begun.elapsed();
    let loaded: Vec<Loaded> = paths.iter().zip(&texts).map(|(path, text)| Loaded::of(text, !path.ends_with("udc.pv"))).collect();
    println!("{} {}", read.as_secs_f64(), begun.elapsed().as_secs_f64());
    black_box(loaded);
}

fn connect(port: u16) -> TcpStream {
    let stream = TcpStream::connect(("127.0.0.1", port)).expect("a connection");
    stream.set_nodelay(true).expect("no delay");
    stream.set_read_timeout(Some(PATIENCE)).expect("a limit of time");
    stream
}

/// Ends a connection, and waits until the other end has.
fn hang_up(mut stream: TcpStream) {
    let _ = stream.shutdown(Shutdown::Write);
    let _ = stream.read_to_end(&mut Vec::new());
}

fn nanoseconds(begun: Instant) -> u32 {
    u32::try_from(begun.elapsed().as_nanos()).unwrap_or(u32::MAX)
}

fn number<N: std::str::FromStr>(word: &str) -> N {
    word.parse().ok().expect("a number")
}

fn seconds(word: &str) -> Duration {
    Duration::from_secs_f64(number(word))
}

fn bytes_of(digits: &str) -> Vec<u8> {
    let pairs = digits.as_bytes().chunks_exact(2);
    pairs.map(|pair| u8::from_str_radix(std::str::from_utf8(pair).expect("digits"), 16).expect("digits")).collect()
}

/// What these jobs return, which are done side by side.
fn side_by_side(count: usize, job: impl Fn(usize, &Barrier) -> Vec<u32> + Sync) -> Vec<u32> {
    let start = Barrier::new(count);
    thread::scope(|all| {
        let threads: Vec<_> = (0..count).map(|at| all.spawn({ let (job, start) = (&job, &start); move || job(at, start) })).collect();
        threads.into_iter().flat_map(|each| each.join().expect("a thread ends well")).collect()
    })
}

fn main() {
    let words: Vec<String> = std::env::args().skip(1).collect();
    let (word, rest) = words.split_first().expect("words");
    let taken = match word.as_str() {
        "ask" => {
            let (plan, port, turn, time) = (Plan::read(), number(&rest[0]), number(&rest[2]), seconds(&rest[3]));
            side_by_side(number(&rest[1]), |at, start| plan.ask(port, at, turn, start, time))
        }
        "edit" => {
            let (port, time, editors) = (number(&rest[0]), seconds(&rest[1]), &rest[2..]);
            side_by_side(editors.len() / 2, |at, start| edit(port, &editors[2 * at], &editors[2 * at + 1], start, time))
        }
        "seen" => seen(number(&rest[0]), number(&rest[1]), &Plan::read(), seconds(&rest[2]), &rest[3], &rest[4]),
        "file" => append(&rest[0], number(&rest[1]), number(&rest[2]), seconds(&rest[3])),
        "echo" => return echo(number(&rest[0]), Plan::read()),
        _ => return load(rest),
    };
    let bytes: Vec<u8> = taken.into_iter().flat_map(u32::to_le_bytes).collect();
    io::stdout().write_all(&bytes).expect("the times are written");
}
