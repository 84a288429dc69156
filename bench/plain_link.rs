// Sends parcels from one thread to another through a plain queue of the standard library with room for 1,024. It proves nothing. `plain_link deque COUNT` sends
// so many through a deque under a lock, `plain_link channel COUNT` through the bounded channel.
use std::collections::VecDeque;
use std::hint::black_box;
use std::sync::Mutex;
use std::sync::mpsc::{TryRecvError, TrySendError, sync_channel};
use std::thread;

const ROOM: usize = 1024;

// As great as a parcel of a link, 152 bytes.
enum Body {
    Ask(u64),
    #[allow(dead_code)]
    Other([u64; 17]),
}

struct Parcel {
    #[allow(dead_code)]
    shard: u8,
    body: Body,
}

// A parcel of which the compiler knows nothing, so that it is moved whole.
fn parcel(number: u64) -> Parcel {
    black_box(Parcel { shard: 0, body: Body::Ask(number) })
}

fn is_number(parcel: Parcel, number: u64) -> bool {
    matches!(black_box(parcel).body, Body::Ask(asked) if asked == number)
}

fn locked(count: u64) {
    let queue = Mutex::new(VecDeque::with_capacity(ROOM));
    thread::scope(|scope| {
        scope.spawn(|| {
            for expected in 0..count {
                loop {
                    let taken = queue.lock().unwrap().pop_front();
                    match taken {
                        Some(parcel) => {
                            assert!(is_number(parcel, expected));
                            break;
                        }
                        None => thread::yield_now(),
                    }
                }
            }
        });
        for number in 0..count {
            let mut left = Some(parcel(number));
            while left.is_some() {
                let mut queue = queue.lock().unwrap();
                if queue.len() < ROOM {
                    queue.push_back(left.take().unwrap());
                } else {
                    drop(queue);
                    thread::yield_now();
                }
            }
        }
    });
}

fn channel(count: u64) {
    let (sender, receiver) = sync_channel(ROOM);
    thread::scope(|scope| {
        scope.spawn(move || {
            for expected in 0..count {
                loop {
                    match receiver.try_recv() {
                        Ok(parcel) => {
                            assert!(is_number(parcel, expected));
                            break;
                        }
                        Err(TryRecvError::Empty) => thread::yield_now(),
                        Err(TryRecvError::Disconnected) => return,
                    }
                }
            }
        });
        for number in 0..count {
            let mut parcel = parcel(number);
            while let Err(TrySendError::Full(back)) = sender.try_send(parcel) {
                parcel = back;
                thread::yield_now();
            }
        }
    });
}

fn main() {
    let words: Vec<String> = std::env::args().collect();
    let count = words[2].parse().unwrap();
    match words[1].as_str() {
        "deque" => locked(count),
        _ => channel(count),
    }
    println!("ordered {count}");
}
