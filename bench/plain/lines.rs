// The lines of scripts.
use super::*;

pub fn is_plain(byte: u8) -> bool {
    (0x21..=0x7e).contains(&byte) && byte != b'%'
}

pub fn number(word: &[u8], limit: u64) -> Result<u64, Fault> {
    if !word.iter().all(u8::is_ascii_digit) || (word.len() > 1 && word[0] == b'0') {
        return Err(Fault::Bad);
    }
    let digits = std::str::from_utf8(word).map_err(|_| Fault::Bad)?;
    digits.parse().ok().filter(|n| *n <= limit).ok_or(Fault::Bad)
}

pub fn node(word: &[u8]) -> Result<u16, Fault> {
    Ok(number(word, MAX_NODES - 1)? as u16)
}

pub fn manager(word: &[u8]) -> Result<u8, Fault> {
    Ok(number(word.strip_prefix(b"m").ok_or(Fault::Bad)?, 8)? as u8)
}

pub fn actor(word: &[u8]) -> Result<Actor, Fault> {
    match word {
        [b'm', ..] => Ok(Actor::Manager(manager(word)?)),
        _ => Ok(Actor::Node(node(word)?)),
    }
}

pub fn digit(byte: u8) -> Result<u8, Fault> {
    match byte {
        b'0'..=b'9' => Ok(byte - b'0'),
        b'A'..=b'F' => Ok(byte - b'A' + 10),
        _ => Err(Fault::Bad),
    }
}

pub fn escaped(high: u8, low: u8) -> Result<u8, Fault> {
    let byte = digit(high)? << 4 | digit(low)?;
    if is_plain(byte) {
        Err(Fault::Bad)
    } else {
        Ok(byte)
    }
}

/// The bytes of a word, in which `%` and two digits stand for each byte that is not plain.
pub fn bytes(word: &[u8]) -> Result<Rc<[u8]>, Fault> {
    match word {
        b"-" => return Ok(Rc::new([])),
        b"%2D" => return Ok(Rc::from(&b"-"[..])),
        _ if !word.is_empty() && word.iter().all(|byte| is_plain(*byte)) => return Ok(word.into()),
        _ => {}
    }
    let mut bytes = Vec::new();
    let mut rest = word;
    while let [byte, behind @ ..] = rest {
        let (byte, behind) = match behind {
            _ if is_plain(*byte) => (*byte, behind),
            [high, low, behind @ ..] if *byte == b'%' => (escaped(*high, *low)?, behind),
            _ => return Err(Fault::Bad),
        };
        bytes.push(byte);
        rest = behind;
    }
    Ok(bytes.into())
}

pub fn key(word: &[u8]) -> Result<Key, Fault> {
    let key = bytes(word)?;
    let fits = (1..=250).contains(&key.len()) && key.iter().all(|byte| *byte >= 0x21 && *byte != 0x7f);
    if fits {
        Ok(key)
    } else {
        Err(Fault::Bad)
    }
}

pub fn content(flags: &[u8], data: &[u8]) -> Result<Content, Fault> {
    Ok(Content { flags: number(flags, u64::from(u32::MAX))? as u32, data: bytes(data)? })
}

pub fn read_op(words: &[&[u8]]) -> Result<(Key, Op), Fault> {
    Ok(match words {
        [b"get", k] => (key(k)?, Op::Read),
        [b"set", k, flags, data] => (key(k)?, Op::Write(content(flags, data)?)),
        [b"cas", k, flags, data, tag] => (key(k)?, Op::Cas { content: content(flags, data)?, tag: number(tag, u64::MAX)? }),
        [b"incr", k, by] => (key(k)?, Op::Incr(number(by, u64::MAX)?)),
        [b"decr", k, by] => (key(k)?, Op::Decr(number(by, u64::MAX)?)),
        [b"add", k, flags, data] => (key(k)?, Op::Add(content(flags, data)?)),
        [b"replace", k, flags, data] => (key(k)?, Op::Replace(content(flags, data)?)),
        [b"delete", k] => (key(k)?, Op::Delete),
        _ => return Err(Fault::Bad),
    })
}

pub fn read_change(words: &[&[u8]]) -> Result<Change, Fault> {
    match words {
        [b"drop", n] => Ok(Change::Drop(node(n)?)),
        [b"add"] => Ok(Change::Add),
        _ => Err(Fault::Bad),
    }
}

pub fn read_header(words: &[&[u8]]) -> Result<World, Fault> {
    let [b"group", nodes, b"managers", managers, b"lease", lease, b"skew", skew] = words else {
        return Err(Fault::Bad);
    };
    let nodes = number(nodes, MAX_MEMBERS as u64)? as u16;
    let world = World::new(nodes, number(managers, 9)? as u8, number(lease, MAX_TIME)?, number(skew, MAX_TIME)?);
    if nodes > 0 {
        Ok(world)
    } else {
        Err(Fault::Bad)
    }
}

impl World {
    /// Makes the event of a line.
    pub fn step(&mut self, words: &[&[u8]]) -> Result<(), Fault> {
        self.shown.clear();
        match words {
            [b"call", n, op @ ..] => {
                let (key, op) = read_op(op)?;
                self.call(node(n)?, key, op)
            }
            [b"take", letter] => self.take(number(letter, u64::MAX)?),
            [b"resend", n, k] => self.resend(node(n)?, key(k)?),
            [b"replay", n, k] => self.replay(node(n)?, key(k)?),
            [b"tick", b"all", to] => self.tick_all(number(to, MAX_TIME)?),
            [b"tick", a, to] => self.tick(actor(a)?, number(to, MAX_TIME)?),
            [b"crash", a] => self.crash(actor(a)?),
            [b"copy", n, from, room] => {
                let (id, from, room) = (node(n)?, node(from)?, number(room, 64)? as u8);
                if room == 0 {
                    return Err(Fault::Bad);
                }
                live(&mut self.nodes, id)?.ask_copy(from, room, &mut self.letters);
                Ok(())
            }
            [b"start", n] => self.start(node(n)?),
            [b"agree", change @ ..] => self.agree(read_change(change)?),
            [b"install", n, epoch] => self.install(node(n)?, number(epoch, u64::MAX)?),
            [b"lease", n, end] => self.lease(node(n)?, number(end, MAX_TIME)?),
            [b"asklease", n, m] => self.ask_lease(node(n)?, manager(m)?),
            [b"propose", m, base, change @ ..] => {
                let (id, base, change) = (manager(m)?, number(base, u64::MAX)?, read_change(change)?);
                live_manager(&mut self.managers, id)?.propose(base, change, &mut self.letters)
            }
            [b"activate", m] => live_manager(&mut self.managers, manager(m)?)?.activate(&mut self.letters),
            _ => Err(Fault::Bad),
        }
    }
}
