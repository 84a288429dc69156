// Relays packets over a tun device, whose name and a number to draw from are its words: what comes out of the device goes back into it, later, out of order,
// twice, or as slowly as through a narrow line. It writes `open` once the device is there, and ends where that can't be had, and where standard input ends.
// Each line there tells by which terms packets go from then on, six numbers:
//   delay jitter   each takes so many microseconds, and up to so many more, drawn
//   ordered        1 where packets from one host to another stay in their order
//   twice          so many in a thousand come twice
//   rate queue     the line from one host to another takes so many bytes a second, or any number where that is 0, and loses what would wait for longer than so
//                  many microseconds
use std::cmp::Reverse;
use std::collections::{BinaryHeap, HashMap};
use std::ffi::{c_char, c_int, c_short, c_ulong, c_void};
use std::fs::{File, OpenOptions};
use std::io::{Read, Write};
use std::os::fd::AsRawFd;
use std::os::unix::fs::OpenOptionsExt;
use std::time::{Duration, Instant};

unsafe extern "C" {
    fn ioctl(file: c_int, request: c_ulong, ...) -> c_int;
    fn ppoll(files: *mut Poll, count: c_ulong, timeout: *const Time, signals: *const c_void) -> c_int;
}

const TUNSETIFF: c_ulong = 0x4004_54CA;
const IFF_TUN: c_short = 1;
const IFF_NO_PI: c_short = 0x1000;
const O_NONBLOCK: c_int = 0o4000;
const POLLIN: c_short = 1;
const PACKET: usize = 65_536;
const NAME: usize = 16;
/// The addresses of a packet of IPv4, the sender's and the receiver's.
const PAIR: std::ops::Range<usize> = 12..20;

#[repr(C)]
struct Request {
    name: [c_char; NAME],
    flags: c_short,
    rest: [u8; 22],
}

#[repr(C)]
struct Poll {
    file: c_int,
    wanted: c_short,
    found: c_short,
}

#[repr(C)]
struct Time {
    seconds: i64,
    nanoseconds: i64,
}

#[derive(Default)]
struct Terms {
    delay: Duration,
    jitter: Duration,
    is_ordered: bool,
    twice: u64,
    rate: u64,
    queue: Duration,
}

impl Terms {
    fn read(line: &str) -> Option<Terms> {
        let numbers: Vec<u64> = line.split(' ').map(|word| word.parse().ok()).collect::<Option<_>>()?;
        let &[delay, jitter, ordered, twice, rate, queue] = numbers.as_slice() else { return None };
        let [delay, jitter, queue] = [delay, jitter, queue].map(Duration::from_micros);
        Some(Terms { delay, jitter, is_ordered: ordered == 1, twice, rate, queue })
    }
}

/// Numbers drawn by the steps of splitmix64.
struct Draw(u64);

impl Draw {
    fn below(&mut self, end: u64) -> u64 {
        self.0 = self.0.wrapping_add(0x9E37_79B9_7F4A_7C15);
        let mixed = (self.0 ^ (self.0 >> 30)).wrapping_mul(0xBF58_476D_1CE4_E5B9);
        let mixed = (mixed ^ (mixed >> 27)).wrapping_mul(0x94D0_49BB_1331_11EB);
        if end == 0 { 0 } else { (mixed ^ (mixed >> 31)) % end }
    }
}

/// The line from one host to another: when it is free again, and when its last packet leaves.
#[derive(Clone, Copy)]
struct Line {
    free: Instant,
    last: Instant,
}

struct Relay {
    device: File,
    terms: Terms,
    draw: Draw,
    lines: HashMap<[u8; 8], Line>,
    waiting: BinaryHeap<Reverse<(Instant, u64, Vec<u8>)>>,
    count: u64,
}

impl Relay {
    fn take(&mut self, packet: &[u8], now: Instant) {
        let Some(pair) = packet.get(PAIR).and_then(|pair| pair.try_into().ok()) else { return };
        let line = self.lines.entry(pair).or_insert(Line { free: now, last: now });
        let mut sent = now;
        if self.terms.rate > 0 {
            sent = sent.max(line.free);
            if sent - now > self.terms.queue {
                return;
            }
            sent += Duration::from_nanos(packet.len() as u64 * 1_000_000_000 / self.terms.rate);
            line.free = sent;
        }
        let times = if self.draw.below(1000) < self.terms.twice { 2 } else { 1 };
        for _ in 0..times {
            let mut due = sent + self.terms.delay + Duration::from_micros(self.draw.below(self.terms.jitter.as_micros() as u64));
            if self.terms.is_ordered {
                due = due.max(line.last);
                line.last = due;
            }
            self.count += 1;
            self.waiting.push(Reverse((due, self.count, packet.to_vec())));
        }
    }

    fn take_all(&mut self) {
        let mut room = [0; PACKET];
        while let Ok(count) = self.device.read(&mut room) {
            self.take(&room[..count], Instant::now());
            self.give_due();
        }
    }

    /// A packet that the device does not take is lost, as packets may be.
    fn give_due(&mut self) {
        while let Some(Reverse((due, _, _))) = self.waiting.peek() {
            if *due > Instant::now() {
                return;
            }
            if let Some(Reverse((_, _, packet))) = self.waiting.pop() {
                let _ = self.device.write(&packet);
            }
        }
    }

    /// Waits until a packet comes or is due, or a line can be read, and gives whether one can.
    fn wait(&self) -> bool {
        let rest = self.waiting.peek().map(|Reverse((due, _, _))| due.saturating_duration_since(Instant::now()));
        let rest = rest.map(|rest| Time { seconds: rest.as_secs() as i64, nanoseconds: rest.subsec_nanos().into() });
        let mut files = [self.device.as_raw_fd(), 0].map(|file| Poll { file, wanted: POLLIN, found: 0 });
        let timeout = rest.as_ref().map_or(std::ptr::null(), |rest| &raw const *rest);
        unsafe { ppoll(files.as_mut_ptr(), 2, timeout, std::ptr::null()) };
        files[1].found != 0
    }
}

fn open(name: &str) -> std::io::Result<File> {
    let device = OpenOptions::new().read(true).write(true).custom_flags(O_NONBLOCK).open("/dev/net/tun")?;
    let mut request = Request { name: [0; NAME], flags: IFF_TUN | IFF_NO_PI, rest: [0; 22] };
    for (place, byte) in request.name.iter_mut().zip(name.bytes().take(NAME - 1)) {
        *place = byte as c_char;
    }
    if unsafe { ioctl(device.as_raw_fd(), TUNSETIFF, &raw mut request) } != 0 {
        return Err(std::io::Error::last_os_error());
    }
    Ok(device)
}

fn main() -> std::io::Result<()> {
    let words: Vec<String> = std::env::args().skip(1).collect();
    let [name, seed] = words.as_slice() else { return Err(std::io::Error::other("a name and a number are wanted")) };
    let device = open(name)?;
    println!("open");
    let draw = Draw(seed.bytes().fold(0, |sum, byte| sum.wrapping_mul(31).wrapping_add(u64::from(byte))));
    let mut relay = Relay { device, terms: Terms::default(), draw, lines: HashMap::new(), waiting: BinaryHeap::new(), count: 0 };
    let mut lines = String::new();
    loop {
        if relay.wait() {
            let mut room = [0; 4096];
            let count = std::io::stdin().read(&mut room)?;
            if count == 0 {
                return Ok(());
            }
            lines.push_str(&String::from_utf8_lossy(&room[..count]));
            while let Some(end) = lines.find('\n') {
                relay.terms = Terms::read(&lines[..end]).unwrap_or_default();
                lines.drain(..=end);
            }
        }
        relay.take_all();
        relay.give_due();
    }
}
