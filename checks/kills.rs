// Kills the process, as SIGKILL does, around one call of the C library, in a program that is started with this library before it. Points are counted from 1: a write to a
// file has three, before it, behind half of its bytes, and behind it; a sync and a cut of a file have two, before and behind. The environment names one of
//   KILL N       the point, of all
//   KILL_OPEN N  the point, of those behind the first call of `listen`: a manager has taken up its log then
//   KILL_SENT N  the call of `send` behind which it is killed
use std::ffi::{c_char, c_int, c_void};
use std::sync::atomic::{AtomicBool, AtomicU64, Ordering};

unsafe extern "C" {
    fn __write(file: c_int, bytes: *const c_void, size: usize) -> isize;
    fn sendto(socket: c_int, bytes: *const c_void, size: usize, flags: c_int, to: *const c_void, to_size: u32) -> isize;
    fn dlsym(library: *const c_void, name: *const c_char) -> *const c_void;
    fn getenv(name: *const c_char) -> *const c_char;
    fn atol(text: *const c_char) -> i64;
    fn getpid() -> c_int;
    fn kill(process: c_int, signal: c_int) -> c_int;
    fn pause() -> c_int;
}

const SIGKILL: c_int = 9;
/// The greatest of the files that each process has.
const STANDARD_ERROR: c_int = 2;
/// Looks for a name behind this library.
const NEXT: *const c_void = -1isize as *const c_void;

/// Points of one kind: how many were passed, and at which one the process is killed; 0 where at none.
struct Points {
    passed: AtomicU64,
    kills: AtomicU64,
}

impl Points {
    const fn new() -> Points {
        Points { passed: AtomicU64::new(0), kills: AtomicU64::new(0) }
    }

    fn pass(&self) {
        let number = self.passed.fetch_add(1, Ordering::SeqCst) + 1;
        if number == self.kills.load(Ordering::SeqCst) {
            unsafe {
                kill(getpid(), SIGKILL);
                loop {
                    pause();
                }
            }
        }
    }
}

static ALL: Points = Points::new();
static OPEN: Points = Points::new();
static SENT: Points = Points::new();
static LISTENS: AtomicBool = AtomicBool::new(false);

fn pass() {
    ALL.pass();
    if LISTENS.load(Ordering::SeqCst) {
        OPEN.pass();
    }
}

unsafe fn next(name: &std::ffi::CStr) -> *const c_void {
    unsafe { dlsym(NEXT, name.as_ptr()) }
}

/// The whole of the bytes is written also where a point between its halves is passed.
#[unsafe(no_mangle)]
pub unsafe extern "C" fn write(file: c_int, bytes: *const c_void, size: usize) -> isize {
    unsafe {
        if file <= STANDARD_ERROR {
            return __write(file, bytes, size);
        }
        pass();
        let first = __write(file, bytes, size / 2);
        if first != (size / 2) as isize {
            return first;
        }
        pass();
        let second = __write(file, bytes.byte_add(size / 2), size - size / 2);
        pass();
        if second < 0 { first } else { first + second }
    }
}

type Sync = unsafe extern "C" fn(c_int) -> c_int;
type Cut = unsafe extern "C" fn(c_int, i64) -> c_int;
type Listen = unsafe extern "C" fn(c_int, c_int) -> c_int;

#[unsafe(no_mangle)]
pub unsafe extern "C" fn fsync(file: c_int) -> c_int {
    pass();
    let told = unsafe { std::mem::transmute::<_, Sync>(next(c"fsync"))(file) };
    pass();
    told
}

#[unsafe(no_mangle)]
pub unsafe extern "C" fn fdatasync(file: c_int) -> c_int {
    pass();
    let told = unsafe { std::mem::transmute::<_, Sync>(next(c"fdatasync"))(file) };
    pass();
    told
}

#[unsafe(no_mangle)]
pub unsafe extern "C" fn ftruncate(file: c_int, size: i64) -> c_int {
    pass();
    let told = unsafe { std::mem::transmute::<_, Cut>(next(c"ftruncate"))(file, size) };
    pass();
    told
}

#[unsafe(no_mangle)]
pub unsafe extern "C" fn listen(socket: c_int, room: c_int) -> c_int {
    LISTENS.store(true, Ordering::SeqCst);
    unsafe { std::mem::transmute::<_, Listen>(next(c"listen"))(socket, room) }
}

#[unsafe(no_mangle)]
pub unsafe extern "C" fn send(socket: c_int, bytes: *const c_void, size: usize, flags: c_int) -> isize {
    let sent = unsafe { sendto(socket, bytes, size, flags, std::ptr::null(), 0) };
    SENT.pass();
    sent
}

unsafe fn asked(name: &std::ffi::CStr) -> u64 {
    unsafe {
        let value = getenv(name.as_ptr());
        if value.is_null() { 0 } else { atol(value) as u64 }
    }
}

extern "C" fn begin() {
    unsafe {
        ALL.kills.store(asked(c"KILL"), Ordering::SeqCst);
        OPEN.kills.store(asked(c"KILL_OPEN"), Ordering::SeqCst);
        SENT.kills.store(asked(c"KILL_SENT"), Ordering::SeqCst);
    }
}

#[used]
#[unsafe(link_section = ".init_array")]
static BEGIN: extern "C" fn() = begin;
