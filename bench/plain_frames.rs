// A plain decoder and encoder of frames of updates: it reads standard input, decodes each frame, encodes each letter
// again and prints how many letters and bytes there were. It proves nothing. `plain_frames gen LETTERS` writes such
// input instead: updates with 100 bytes of data.
use std::io::{Read, Write};
use std::sync::Arc;

struct Update {
    shard: u8,
    epoch: u64,
    from: [u8; 3],
    to: [u8; 3],
    key: Arc<[u8]>,
    version: u64,
    node: u16,
    kind: u8,
    flags: u32,
    data: Arc<[u8]>,
}

fn generate(letters: u64) {
    let mut out = std::io::BufWriter::new(std::io::stdout().lock());
    let mut state = 1u64;
    for _ in 0..letters {
        state = state.wrapping_mul(6364136223846793005).wrapping_add(1442695040888963407);
        let update = Update {
            shard: (state >> 60) as u8 & 7,
            epoch: 1,
            from: [0, 0, 0],
            to: [0, 0, 1],
            key: format!("key:{}", (state >> 33) % 100_000).into_bytes().into(),
            version: state >> 20,
            node: 0,
            kind: (state >> 63) as u8,
            flags: 7,
            data: vec![b'd'; 100].into(),
        };
        let mut frame = Vec::new();
        encode(&update, &mut frame);
        out.write_all(&frame).unwrap();
    }
}

fn take<'a>(bytes: &mut &'a [u8], count: usize) -> Option<&'a [u8]> {
    if bytes.len() < count {
        return None;
    }
    let (front, rest) = bytes.split_at(count);
    *bytes = rest;
    Some(front)
}

fn number(bytes: &mut &[u8], count: usize) -> Option<u64> {
    Some(take(bytes, count)?.iter().fold(0, |n, byte| n << 8 | u64::from(*byte)))
}

fn actor(bytes: &mut &[u8]) -> Option<[u8; 3]> {
    let [class, high, low] = *take(bytes, 3)? else { return None };
    let number = u16::from_be_bytes([high, low]);
    (class == 0 || class == 1 && number < 9).then_some([class, high, low])
}

fn decode(bytes: &[u8]) -> Option<(Update, usize)> {
    let mut rest = bytes;
    let length = number(&mut rest, 4)? as usize;
    if !(16..=2_200_000).contains(&length) {
        return None;
    }
    let mut fields = take(&mut rest, length)?;
    if number(&mut fields, 1)? != 1 {
        return None;
    }
    let shard = number(&mut fields, 1)? as u8;
    let epoch = number(&mut fields, 8)?;
    let from = actor(&mut fields)?;
    let to = actor(&mut fields)?;
    let count = number(&mut fields, 1)? as usize;
    let key = take(&mut fields, count)?;
    let version = number(&mut fields, 8)?;
    let node = number(&mut fields, 2)? as u16;
    let kind = number(&mut fields, 1)? as u8;
    let flags = number(&mut fields, 4)? as u32;
    let count = number(&mut fields, 4)? as usize;
    let data = take(&mut fields, count)?;
    let is_key = (1..=250).contains(&key.len()) && key.iter().all(|b| *b >= 0x21 && *b != 0x7f);
    if shard > 7 || version >> 48 != 0 || kind > 1 || data.len() > 1_048_576 || !fields.is_empty() || !is_key {
        return None;
    }
    let update = Update { shard, epoch, from, to, key: key.into(), version, node, kind, flags, data: data.into() };
    Some((update, 4 + length))
}

fn encode(update: &Update, out: &mut Vec<u8>) {
    let length = 16 + 1 + update.key.len() + 10 + 1 + 8 + update.data.len();
    out.reserve(4 + length);
    out.extend_from_slice(&(length as u32).to_be_bytes());
    out.extend_from_slice(&[1, update.shard]);
    out.extend_from_slice(&update.epoch.to_be_bytes());
    out.extend_from_slice(&update.from);
    out.extend_from_slice(&update.to);
    out.push(update.key.len() as u8);
    out.extend_from_slice(&update.key);
    out.extend_from_slice(&update.version.to_be_bytes());
    out.extend_from_slice(&update.node.to_be_bytes());
    out.push(update.kind);
    out.extend_from_slice(&update.flags.to_be_bytes());
    out.extend_from_slice(&(update.data.len() as u32).to_be_bytes());
    out.extend_from_slice(&update.data);
}

fn main() {
    let words: Vec<String> = std::env::args().collect();
    if words.len() == 3 && words[1] == "gen" {
        return generate(words[2].parse().unwrap());
    }
    let mut bytes = Vec::new();
    std::io::stdin().lock().read_to_end(&mut bytes).unwrap();
    let mut rest = &bytes[..];
    let mut out = Vec::new();
    let (mut letters, mut printed) = (0u64, 0u64);
    while let Some((update, length)) = decode(rest) {
        encode(&update, &mut out);
        letters += 1;
        rest = &rest[length..];
        if out.len() >= 65_536 {
            printed += out.len() as u64;
            out.clear();
        }
    }
    println!("letters {letters} bytes {}", printed + out.len() as u64);
}
