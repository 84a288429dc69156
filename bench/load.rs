// Asks servers that speak the memcached text protocol, or redis or etcd, and prints requests a second, the microseconds of processor time that
// the servers spent on each, the 50th and 99th percentile of the time to an answer, in microseconds, and how many requests were refused.
//
// `load ADDRESSES PROCESSES CONNECTIONS DEPTH REQUESTS SETS` asks over so many connections, each a thread that has DEPTH requests on their way,
// REQUESTS in all, of which SETS in a hundred are sets; the others are gets. There are 10,000 keys, each with a value of 100 bytes, which
// are set first where they are not there yet. Connections go to the ADDRESSES in turn. PROCESSES are those that serve. Both are parted by commas;
// an address is a port of 127.0.0.1, or HOST:PORT. With SECONDS behind it all, nothing is asked any more from then on; with `-` in their place once standard input ends.
//
// `load redis ADDRESSES PROCESSES ..` does the same at redis, where each batch with a set ends with a `WAIT 2 0`: it is answered once two replicas
// have what was set.
//
// `load etcd ADDRESSES PROCESSES CONNECTIONS 1 ..` does the same at members of etcd, by the JSON gateway of its third version, whose reads are linearizable too.
//
// `load ADDRESS KEYS` sets so many keys, each with such a value, or with one of BYTES bytes by `load ADDRESS KEYS BYTES`, and prints nothing.
use std::io::{self, BufRead, BufReader, Read, Write};
use std::net::TcpStream;
use std::sync::atomic::{AtomicBool, Ordering};
use std::time::{Duration, Instant};

const KEYS: u64 = 10_000;
const VALUE: [u8; 100] = [b'v'; 100];
/// Whether standard input has ended, where that is waited for.
static ENDED: AtomicBool = AtomicBool::new(false);

struct Draws(u64);

impl Draws {
    fn below(&mut self, n: u64) -> u64 {
        self.0 = self.0.wrapping_mul(6364136223846793005).wrapping_add(1442695040888963407);
        (self.0 >> 33) % n
    }
}

/// What a server speaks.
#[derive(Clone, Copy, PartialEq, Eq)]
enum Protocol {
    Memcached,
    Redis,
    Etcd,
}

impl Protocol {
    /// The protocol of this name.
    fn named(name: &str) -> Option<Protocol> {
        match name {
            "redis" => Some(Protocol::Redis),
            "etcd" => Some(Protocol::Etcd),
            _ => None,
        }
    }

    /// A set of this value, or a get where there is none.
    fn put_request(self, out: &mut Vec<u8>, key: u64, value: Option<&[u8]>) -> io::Result<()> {
        let key = format!("key:{key:08}");
        match (self, value) {
            (Protocol::Memcached, Some(value)) => write!(out, "set {key} 0 0 {}\r\n", value.len())?,
            (Protocol::Memcached, None) => return write!(out, "get {key}\r\n"),
            (Protocol::Redis, Some(value)) => write!(out, "*3\r\n$3\r\nSET\r\n$12\r\n{key}\r\n${}\r\n", value.len())?,
            (Protocol::Redis, None) => return write!(out, "*2\r\n$3\r\nGET\r\n$12\r\n{key}\r\n"),
            (Protocol::Etcd, Some(value)) => return put_post(out, "put", &format!("{{\"key\":\"{}\",\"value\":\"{}\"}}", base64(key.as_bytes()), base64(value))),
            (Protocol::Etcd, None) => return put_post(out, "range", &format!("{{\"key\":\"{}\"}}", base64(key.as_bytes()))),
        }
        out.extend_from_slice(value.unwrap_or_default());
        out.extend_from_slice(b"\r\n");
        Ok(())
    }

    /// Ends a batch with so many sets. Gives whether a reply of its own is due to that.
    fn put_end(self, out: &mut Vec<u8>, sets: usize) -> bool {
        let waits = self == Protocol::Redis && sets > 0;
        if waits {
            out.extend_from_slice(b"*3\r\n$4\r\nWAIT\r\n$1\r\n2\r\n$1\r\n0\r\n");
        }
        waits
    }

    fn quit(self) -> &'static [u8] {
        match self {
            Protocol::Memcached => b"quit\r\n",
            Protocol::Redis => b"*1\r\n$4\r\nQUIT\r\n",
            Protocol::Etcd => b"GET /health HTTP/1.1\r\nHost: localhost\r\nConnection: close\r\n\r\n",
        }
    }
}

/// A request of HTTP to etcd's gateway.
fn put_post(out: &mut Vec<u8>, call: &str, body: &str) -> io::Result<()> {
    write!(out, "POST /v3/kv/{call} HTTP/1.1\r\nHost: localhost\r\nContent-Length: {}\r\n\r\n{body}", body.len())
}

fn base64(bytes: &[u8]) -> String {
    const DIGITS: &[u8; 64] = b"ABCDEFGHIJKLMNOPQRSTUVWXYZabcdefghijklmnopqrstuvwxyz0123456789+/";
    let mut text = String::new();
    for group in bytes.chunks(3) {
        let bits = (0..3).fold(0, |bits, at| bits << 8 | usize::from(*group.get(at).unwrap_or(&0)));
        for at in 0..4 {
            text.push(if at <= group.len() { DIGITS[bits >> (18 - 6 * at) & 63] as char } else { '=' });
        }
    }
    text
}

struct Client {
    protocol: Protocol,
    reader: BufReader<TcpStream>,
    stream: TcpStream,
    line: Vec<u8>,
}

impl Client {
    fn new(protocol: Protocol, address: &str) -> io::Result<Client> {
        let stream = if address.contains(':') { TcpStream::connect(address) } else { TcpStream::connect(format!("127.0.0.1:{address}")) }?;
        stream.set_nodelay(true)?;
        let reader = BufReader::with_capacity(1 << 16, stream.try_clone()?);
        Ok(Client { protocol, reader, stream, line: Vec::new() })
    }

    fn quit(mut self) -> io::Result<()> {
        self.stream.write_all(self.protocol.quit())?;
        self.reader.read_to_end(&mut Vec::new())?;
        Ok(())
    }

    fn read_line(&mut self) -> io::Result<()> {
        self.line.clear();
        self.reader.read_until(b'\n', &mut self.line)?;
        Ok(())
    }

    /// Reads one reply of HTTP, and gives its body.
    fn read_body(&mut self) -> io::Result<String> {
        self.read_line()?;
        assert_eq!(self.line, b"HTTP/1.1 200 OK\r\n");
        let mut length = 0;
        while self.line != b"\r\n" {
            self.read_line()?;
            let line = String::from_utf8_lossy(&self.line).to_ascii_lowercase();
            if let Some(word) = line.strip_prefix("content-length: ") {
                length = number(word.trim_end()) as usize;
            }
        }
        let mut body = vec![0; length];
        self.reader.read_exact(&mut body)?;
        Ok(String::from_utf8_lossy(&body).into_owned())
    }

    /// Reads one reply, and panics where it is none that is due. Gives whether it is one, and no refusal.
    fn reply(&mut self, is_set: bool) -> io::Result<bool> {
        let (stored, found, end): (&[u8], &[u8], &[u8]) = match self.protocol {
            Protocol::Memcached => (b"STORED\r\n", b"VALUE ", b"END\r\n"),
            Protocol::Redis => (b"+OK\r\n", b"$100\r\n", b""),
            Protocol::Etcd => {
                let body = self.read_body()?;
                assert!(is_set || body.contains(&base64(&VALUE)), "{}", body);
                return Ok(true);
            }
        };
        self.read_line()?;
        if self.line.starts_with(b"SERVER_ERROR ") {
            return Ok(false);
        }
        if is_set {
            assert_eq!(self.line, stored);
            return Ok(true);
        }
        assert!(self.line.starts_with(found), "{}", String::from_utf8_lossy(&self.line));
        let mut value = [0; VALUE.len() + 2];
        self.reader.read_exact(&mut value)?;
        let mut rest = [0; 5];
        self.reader.read_exact(&mut rest[..end.len()])?;
        assert_eq!(&rest[..end.len()], end);
        Ok(true)
    }
}

/// Whether the server has this key, with a value of so many bytes.
fn is_there(client: &mut Client, key: u64, bytes: usize) -> io::Result<bool> {
    let mut out = Vec::new();
    client.protocol.put_request(&mut out, key, None)?;
    client.stream.write_all(&out)?;
    if client.protocol == Protocol::Etcd {
        return Ok(client.read_body()?.contains("\"value\""));
    }
    client.read_line()?;
    if client.line == b"END\r\n" || client.line == b"$-1\r\n" {
        return Ok(false);
    }
    let end = if client.protocol == Protocol::Redis { 0 } else { 5 };
    let mut rest = vec![0; bytes + 2 + end];
    client.reader.read_exact(&mut rest)?;
    Ok(true)
}

/// Sets so many keys to this value, unless the last of them is there. Replies are read up to a hundredth of the keys late, so that client and server need not take turns.
fn fill(protocol: Protocol, address: &str, keys: u64, value: &[u8]) -> io::Result<()> {
    let mut client = Client::new(protocol, address)?;
    if is_there(&mut client, keys - 1, value.len())? {
        return Ok(());
    }
    let (mut out, mut replies) = (Vec::new(), 0);
    for key in 0..keys {
        protocol.put_request(&mut out, key, Some(value))?;
        let is_last = key + 1 == keys;
        if out.len() > 8192 || is_last {
            client.stream.write_all(&out)?;
            out.clear();
            while replies <= key && (is_last || key - replies >= keys / 100) {
                assert!(client.reply(true)?, "a set is refused");
                replies += 1;
            }
        }
    }
    client.quit()
}

/// What each connection asks.
#[derive(Clone, Copy)]
struct Asked {
    protocol: Protocol,
    depth: u64,
    requests: u64,
    sets: u64,
    ends: Option<Instant>,
}

/// Gives the times to the answers of each batch of DEPTH requests, and how many requests were refused.
fn ask(asked: Asked, address: &str, start: u64) -> io::Result<(Vec<Duration>, u64)> {
    let protocol = asked.protocol;
    let mut client = Client::new(protocol, address)?;
    let mut draws = Draws(start);
    let (mut out, mut kinds, mut times, mut refused) = (Vec::new(), Vec::new(), Vec::new(), 0);
    for _ in 0..asked.requests / asked.depth {
        if asked.ends.is_some_and(|ends| Instant::now() > ends) || ENDED.load(Ordering::Relaxed) {
            break;
        }
        out.clear();
        kinds.clear();
        for _ in 0..asked.depth {
            let is_set = draws.below(100) < asked.sets;
            protocol.put_request(&mut out, draws.below(KEYS), is_set.then_some(&VALUE[..]))?;
            kinds.push(is_set);
        }
        let waits = protocol.put_end(&mut out, kinds.iter().filter(|is_set| **is_set).count());
        let begun = Instant::now();
        client.stream.write_all(&out)?;
        for is_set in &kinds {
            refused += u64::from(!client.reply(*is_set)?);
        }
        if waits {
            client.read_line()?;
            assert_eq!(client.line, b":2\r\n", "two replicas");
        }
        times.push(begun.elapsed());
    }
    client.quit()?;
    Ok((times, refused))
}

/// The processor time of processes, in microseconds.
fn spent(processes: &[u64]) -> io::Result<f64> {
    processes.iter().map(|process| spent_by(*process)).sum()
}

fn spent_by(process: u64) -> io::Result<f64> {
    let stat = std::fs::read_to_string(format!("/proc/{process}/stat"))?;
    let words: Vec<&str> = stat[stat.rfind(')').unwrap_or(0)..].split(' ').collect();
    let ticks: f64 = words[12].parse::<f64>().unwrap_or(0.0) + words[13].parse::<f64>().unwrap_or(0.0);
    Ok(ticks * 10_000.0)
}

/// Reads standard input until it ends.
fn wait_for_end() {
    let _ = io::stdin().read_to_end(&mut Vec::new());
    ENDED.store(true, Ordering::Relaxed);
}

fn number(word: &str) -> u64 {
    word.parse().expect("a number")
}

fn main() -> io::Result<()> {
    let words: Vec<String> = std::env::args().skip(1).collect();
    let mut words: Vec<&str> = words.iter().map(String::as_str).collect();
    let mut protocol = Protocol::Memcached;
    if let Some(named) = words.first().and_then(|name| Protocol::named(name)) {
        words.remove(0);
        protocol = named;
    }
    match words[..] {
        [address, keys] => return fill(protocol, address, number(keys), &VALUE),
        [address, keys, bytes] => return fill(protocol, address, number(keys), &vec![b'v'; number(bytes) as usize]),
        _ => {}
    }
    let (words, seconds) = match &words[..] {
        [words @ .., "-"] if words.len() == 6 => {
            std::thread::spawn(wait_for_end);
            (words, None)
        }
        [words @ .., seconds] if words.len() == 6 => (words, Some(number(seconds))),
        words => (words, None),
    };
    let [addresses, processes, connections, depth, requests, sets] = words[..] else {
        eprintln!("usage: load [redis | etcd] ADDRESSES PROCESSES CONNECTIONS DEPTH REQUESTS SETS [SECONDS | -] | load [redis | etcd] ADDRESS KEYS [BYTES]");
        std::process::exit(2);
    };
    let addresses: Vec<&str> = addresses.split(',').collect();
    let processes: Vec<u64> = processes.split(',').map(number).collect();
    let connections = number(connections);
    fill(protocol, addresses[0], KEYS, &VALUE)?;
    let (spent_before, begun) = (spent(&processes)?, Instant::now());
    let ends = seconds.map(|seconds| begun + Duration::from_secs(seconds));
    let asked = Asked { protocol, depth: number(depth), requests: number(requests) / connections, sets: number(sets), ends };
    let asking: Vec<_> = (0..connections)
        .map(|start| {
            let address = addresses[start as usize % addresses.len()].to_string();
            std::thread::spawn(move || ask(asked, &address, start))
        })
        .collect();
    let (mut times, mut refused) = (Vec::new(), 0);
    for thread in asking {
        let (of_thread, refused_there) = thread.join().expect("a thread ended")?;
        times.extend(of_thread);
        refused += refused_there;
    }
    let (wall, cpu) = (begun.elapsed().as_secs_f64(), spent(&processes)? - spent_before);
    let count = (times.len() as u64 * asked.depth) as f64;
    times.sort_unstable();
    let percentile = |part: usize| times[(times.len() - 1) * part / 100].as_secs_f64() * 1e6;
    println!("{:.0} {:.3} {:.0} {:.0} {refused}", count / wall, cpu / count, percentile(50), percentile(99));
    Ok(())
}
