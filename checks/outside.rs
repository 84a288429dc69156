// Steers the clock, the disk and the threads of a process while it runs, in a program that is started with this library before it. `OUTSIDE` names a file of
// seven numbers of 64 bits, in the machine's order, which whoever started the process may change at any time:
//   rate   by how many millionths of a second the process's clock goes on in a second; its waits that have an end last as long by that clock
//   jump   by how many milliseconds that clock was set forward in all
//   sync   how many milliseconds each sync of a file takes longer
//   full   1 where the disk is full: a write to a file takes half of its bytes, and one of a single byte none
//   hold   for how many milliseconds a thread stands still behind a reading of the clock, now and then
//   every  how many milliseconds a thread goes on before that, and in between
//   held   how often that was so: the process counts it
// Without the file, or with 0 for the rate, clock, disk and threads are the machine's.
use std::cell::Cell;
use std::ffi::{c_char, c_int, c_void};
use std::sync::Mutex;
use std::sync::atomic::{AtomicI64, AtomicPtr, AtomicUsize, Ordering};

unsafe extern "C" {
    fn __write(file: c_int, bytes: *const c_void, size: usize) -> isize;
    fn __errno_location() -> *mut c_int;
    fn dlsym(library: *const c_void, name: *const c_char) -> *const c_void;
    fn getenv(name: *const c_char) -> *const c_char;
    fn open(path: *const c_char, flags: c_int, ...) -> c_int;
    fn mmap(at: *mut c_void, size: usize, access: c_int, flags: c_int, file: c_int, offset: i64) -> *mut c_void;
    fn nanosleep(asked: *const Time, left: *mut Time) -> c_int;
}

const ENOSPC: c_int = 28;
const STANDARD_ERROR: c_int = 2;
const READ_AND_WRITE: c_int = 2;
const PROT_READ: c_int = 1;
const PROT_WRITE: c_int = 2;
const MAP_SHARED: c_int = 1;
const CLOCK_MONOTONIC: c_int = 1;
const SYS_FUTEX: i64 = 202;
const FUTEX_WAIT: usize = 0;
/// The other bits of an operation tell which clock it waits by, and whose word it is.
const FUTEX_COMMANDS: usize = 127;
const SECOND: i64 = 1_000_000_000;
const MILLISECOND: i64 = 1_000_000;
const MILLION: i64 = 1_000_000;
/// Looks for a name behind this library.
const NEXT: *const c_void = -1isize as *const c_void;

#[repr(C)]
#[derive(Clone, Copy)]
pub struct Time {
    seconds: i64,
    nanoseconds: i64,
}

impl Time {
    fn of(nanoseconds: i64) -> Time {
        Time { seconds: nanoseconds / SECOND, nanoseconds: nanoseconds % SECOND }
    }

    fn whole(self) -> i64 {
        self.seconds.saturating_mul(SECOND).saturating_add(self.nanoseconds)
    }
}

#[repr(C)]
struct Steered {
    rate: AtomicI64,
    jump: AtomicI64,
    sync: AtomicI64,
    full: AtomicI64,
    hold: AtomicI64,
    every: AtomicI64,
    held: AtomicI64,
}

static STEERED: AtomicPtr<Steered> = AtomicPtr::new(std::ptr::null_mut());
static UNSTEERED: Steered = Steered {
    rate: AtomicI64::new(0),
    jump: AtomicI64::new(0),
    sync: AtomicI64::new(0),
    full: AtomicI64::new(0),
    hold: AtomicI64::new(0),
    every: AtomicI64::new(0),
    held: AtomicI64::new(0),
};

fn steered() -> &'static Steered {
    unsafe { STEERED.load(Ordering::Acquire).as_ref() }.unwrap_or(&UNSTEERED)
}

fn rate() -> i64 {
    match steered().rate.load(Ordering::Relaxed) {
        rate if rate > 0 => rate,
        _ => MILLION,
    }
}

/// From when on, by the machine's clock, the rate was this one, and what the process's clock showed then, but for its jumps.
struct Since {
    rate: i64,
    machine: i64,
    shown: i64,
}

impl Since {
    fn at(&self, machine: i64) -> i64 {
        self.shown + ((machine - self.machine) as i128 * self.rate as i128 / MILLION as i128) as i64
    }
}

static SINCE: Mutex<Option<Since>> = Mutex::new(None);

/// What the process's clock shows where the machine's shows this.
fn shown(machine: i64) -> i64 {
    let rate = rate();
    let Ok(mut since) = SINCE.lock() else { return machine };
    let since = since.get_or_insert(Since { rate, machine, shown: machine });
    if since.rate != rate {
        *since = Since { rate, machine, shown: since.at(machine) };
    }
    since.at(machine) + steered().jump.load(Ordering::Relaxed) * MILLISECOND
}

/// The function of this name behind this library, looked for once.
unsafe fn next(found: &AtomicUsize, name: &std::ffi::CStr) -> *const c_void {
    let known = found.load(Ordering::Relaxed) as *const c_void;
    if !known.is_null() {
        return known;
    }
    let looked = unsafe { dlsym(NEXT, name.as_ptr()) };
    found.store(looked as usize, Ordering::Relaxed);
    looked
}

type Clock = unsafe extern "C" fn(c_int, *mut Time) -> c_int;
type Sync = unsafe extern "C" fn(c_int) -> c_int;
type Syscall = unsafe extern "C" fn(i64, usize, usize, usize, usize, usize, usize) -> i64;

static CLOCK: AtomicUsize = AtomicUsize::new(0);
static SYSCALL: AtomicUsize = AtomicUsize::new(0);
static FSYNC: AtomicUsize = AtomicUsize::new(0);
static FDATASYNC: AtomicUsize = AtomicUsize::new(0);

#[unsafe(no_mangle)]
pub unsafe extern "C" fn clock_gettime(clock: c_int, time: *mut Time) -> c_int {
    unsafe {
        let told = std::mem::transmute::<_, Clock>(next(&CLOCK, c"clock_gettime"))(clock, time);
        if told == 0 && clock == CLOCK_MONOTONIC {
            let machine = (*time).whole();
            *time = Time::of(shown(machine));
            hold_behind(machine);
        }
        told
    }
}

/// The call is made of six words, however many of them it has. Of a wait for a word the fourth says how long it lasts at most.
#[unsafe(no_mangle)]
pub unsafe extern "C" fn syscall(number: i64, word: usize, operation: usize, count: usize, fourth: usize, fifth: usize, sixth: usize) -> i64 {
    unsafe {
        let next = std::mem::transmute::<_, Syscall>(next(&SYSCALL, c"syscall"));
        if number != SYS_FUTEX || operation & FUTEX_COMMANDS != FUTEX_WAIT || fourth == 0 {
            return next(number, word, operation, count, fourth, fifth, sixth);
        }
        let wanted = (*(fourth as *const Time)).whole();
        let lasts = Time::of((wanted as i128 * MILLION as i128 / rate() as i128) as i64);
        next(number, word, operation, count, &raw const lasts as usize, fifth, sixth)
    }
}

fn rest(milliseconds: i64) {
    unsafe { nanosleep(&Time::of(milliseconds * MILLISECOND), std::ptr::null_mut()) };
}

thread_local! {
    /// When this thread may be held next, by the machine's clock; 0 before it read one.
    static NEXT_HOLD: Cell<i64> = const { Cell::new(0) };
}

/// Holds the thread that has read its clock, where it went on for long enough. The threads of a process are held at different times.
fn hold_behind(machine: i64) {
    let (hold, every) = (steered().hold.load(Ordering::Relaxed), steered().every.load(Ordering::Relaxed).max(1));
    if hold <= 0 {
        return NEXT_HOLD.set(0);
    }
    match NEXT_HOLD.get() {
        0 => NEXT_HOLD.set(machine + machine / 1_000 % every * MILLISECOND),
        due if due <= machine => {
            steered().held.fetch_add(1, Ordering::Relaxed);
            rest(hold);
            NEXT_HOLD.set(machine + (hold + every) * MILLISECOND);
        }
        _ => {}
    }
}

/// The disk is slow, where it is.
fn wait_for_disk() {
    let asked = steered().sync.load(Ordering::Relaxed);
    if asked > 0 {
        rest(asked);
    }
}

#[unsafe(no_mangle)]
pub unsafe extern "C" fn fsync(file: c_int) -> c_int {
    wait_for_disk();
    unsafe { std::mem::transmute::<_, Sync>(next(&FSYNC, c"fsync"))(file) }
}

#[unsafe(no_mangle)]
pub unsafe extern "C" fn fdatasync(file: c_int) -> c_int {
    wait_for_disk();
    unsafe { std::mem::transmute::<_, Sync>(next(&FDATASYNC, c"fdatasync"))(file) }
}

#[unsafe(no_mangle)]
pub unsafe extern "C" fn write(file: c_int, bytes: *const c_void, size: usize) -> isize {
    unsafe {
        if file <= STANDARD_ERROR || steered().full.load(Ordering::Relaxed) == 0 {
            return __write(file, bytes, size);
        }
        if size <= 1 {
            *__errno_location() = ENOSPC;
            return -1;
        }
        __write(file, bytes, size / 2)
    }
}

extern "C" fn begin() {
    unsafe {
        let path = getenv(c"OUTSIDE".as_ptr());
        if path.is_null() {
            return;
        }
        let file = open(path, READ_AND_WRITE);
        let map = mmap(std::ptr::null_mut(), size_of::<Steered>(), PROT_READ | PROT_WRITE, MAP_SHARED, file, 0);
        if file >= 0 && map as isize != -1 {
            STEERED.store(map.cast(), Ordering::Release);
        }
    }
}

#[used]
#[unsafe(link_section = ".init_array")]
static BEGIN: extern "C" fn() = begin;
