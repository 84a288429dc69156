// Makes one call of the C library fail, in a program that is started with this library before it: the environment names a kind of
// call, `ALLOCATE`, `READ`, `WRITE` or `THREAD`, and the number of the call that fails, counted from 1. With `SHORT` 1 each write takes one byte,
// with 2 each read gives one, with 3 both. Reads and writes are those of standard input, standard output and sockets. With `WAKES` N of each N calls
// that wake all who sleep at a word one is lost.
// At the end it tells on standard error how many calls of each kind were made.
use std::ffi::{c_char, c_int, c_void};
use std::sync::atomic::{AtomicU64, Ordering};

unsafe extern "C" {
    fn __libc_malloc(size: usize) -> *mut c_void;
    fn __libc_calloc(count: usize, size: usize) -> *mut c_void;
    fn __libc_realloc(block: *mut c_void, size: usize) -> *mut c_void;
    fn __libc_memalign(align: usize, size: usize) -> *mut c_void;
    fn __read(file: c_int, room: *mut c_void, size: usize) -> isize;
    fn __write(file: c_int, bytes: *const c_void, size: usize) -> isize;
    fn recvfrom(socket: c_int, room: *mut c_void, size: usize, flags: c_int, from: *mut c_void, from_size: *mut u32) -> isize;
    fn sendto(socket: c_int, bytes: *const c_void, size: usize, flags: c_int, to: *const c_void, to_size: u32) -> isize;
    fn setsockopt(socket: c_int, level: c_int, name: c_int, value: *const c_void, size: u32) -> c_int;
    fn bind(socket: c_int, address: *const c_void, size: u32) -> c_int;
    fn __errno_location() -> *mut c_int;
    fn dlsym(library: *const c_void, name: *const c_char) -> *const c_void;
    fn getenv(name: *const c_char) -> *const c_char;
    fn atol(text: *const c_char) -> i64;
    fn dprintf(file: c_int, format: *const c_char, ...) -> c_int;
    fn exit(status: c_int) -> !;
}

const EIO: c_int = 5;
const EAGAIN: c_int = 11;
const ENOMEM: c_int = 12;
const SOL_SOCKET: c_int = 1;
const SO_REUSEADDR: c_int = 2;
const SYS_FUTEX: i64 = 202;
const FUTEX_WAKE: usize = 1;
/// The other bits of an operation tell which clock it waits by, and whose word it is.
const FUTEX_COMMANDS: usize = 127;
const ALL_SLEEPERS: usize = i32::MAX as usize;
static YES: c_int = 1;
/// Looks for a name behind this library.
const NEXT: *const c_void = -1isize as *const c_void;

/// Calls of one kind: how many were made, and which of them fails; 0 where none does.
struct Calls {
    made: AtomicU64,
    fails: AtomicU64,
}

impl Calls {
    const fn new() -> Calls {
        Calls { made: AtomicU64::new(0), fails: AtomicU64::new(0) }
    }

    fn fail(&self) -> bool {
        let number = self.made.fetch_add(1, Ordering::Relaxed) + 1;
        number == self.fails.load(Ordering::Relaxed)
    }

    fn number(&self) -> u64 {
        self.made.load(Ordering::Relaxed)
    }

    fn set(&self, fails: u64) {
        self.made.store(0, Ordering::Relaxed);
        self.fails.store(fails, Ordering::Relaxed);
    }
}

static ALLOCATIONS: Calls = Calls::new();
static READS: Calls = Calls::new();
static WRITES: Calls = Calls::new();
static THREADS: Calls = Calls::new();
static SHORT: AtomicU64 = AtomicU64::new(0);
static MEETS: AtomicU64 = AtomicU64::new(0);
/// Of so many wake-ups one is lost, 0 where none is, and how many were called for.
static LOSES: AtomicU64 = AtomicU64::new(0);
static WAKES: AtomicU64 = AtomicU64::new(0);

/// A request for memory that is refused. The C library itself looks at the number of the error where it makes a thread.
unsafe fn refused() -> *mut c_void {
    unsafe { *__errno_location() = ENOMEM };
    std::ptr::null_mut()
}

#[unsafe(no_mangle)]
pub unsafe extern "C" fn malloc(size: usize) -> *mut c_void {
    if ALLOCATIONS.fail() { unsafe { refused() } } else { unsafe { __libc_malloc(size) } }
}

#[unsafe(no_mangle)]
pub unsafe extern "C" fn calloc(count: usize, size: usize) -> *mut c_void {
    if ALLOCATIONS.fail() { unsafe { refused() } } else { unsafe { __libc_calloc(count, size) } }
}

#[unsafe(no_mangle)]
pub unsafe extern "C" fn realloc(block: *mut c_void, size: usize) -> *mut c_void {
    if ALLOCATIONS.fail() { unsafe { refused() } } else { unsafe { __libc_realloc(block, size) } }
}

#[unsafe(no_mangle)]
pub unsafe extern "C" fn aligned_alloc(align: usize, size: usize) -> *mut c_void {
    if ALLOCATIONS.fail() { unsafe { refused() } } else { unsafe { __libc_memalign(align, size) } }
}

#[unsafe(no_mangle)]
pub unsafe extern "C" fn posix_memalign(block: *mut *mut c_void, align: usize, size: usize) -> c_int {
    let made = unsafe { aligned_alloc(align, size) };
    if made.is_null() {
        return ENOMEM;
    }
    unsafe { *block = made };
    0
}

unsafe fn faulty() -> isize {
    unsafe { *__errno_location() = EIO };
    -1
}

/// As many bytes as a call moves, where `short` is the bit of `SHORT` for its kind.
fn moved(size: usize, short: u64) -> usize {
    if SHORT.load(Ordering::Relaxed) & short != 0 { size.min(1) } else { size }
}

#[unsafe(no_mangle)]
pub unsafe extern "C" fn read(file: c_int, room: *mut c_void, size: usize) -> isize {
    if file != 0 {
        return unsafe { __read(file, room, size) };
    }
    if READS.fail() { unsafe { faulty() } } else { unsafe { __read(file, room, moved(size, 2)) } }
}

#[unsafe(no_mangle)]
pub unsafe extern "C" fn write(file: c_int, bytes: *const c_void, size: usize) -> isize {
    if file != 1 {
        return unsafe { __write(file, bytes, size) };
    }
    if WRITES.fail() { unsafe { faulty() } } else { unsafe { __write(file, bytes, moved(size, 1)) } }
}

#[unsafe(no_mangle)]
pub unsafe extern "C" fn recv(socket: c_int, room: *mut c_void, size: usize, flags: c_int) -> isize {
    if READS.fail() {
        return unsafe { faulty() };
    }
    unsafe { recvfrom(socket, room, moved(size, 2), flags, std::ptr::null_mut(), std::ptr::null_mut()) }
}

#[unsafe(no_mangle)]
pub unsafe extern "C" fn send(socket: c_int, bytes: *const c_void, size: usize, flags: c_int) -> isize {
    if WRITES.fail() {
        return unsafe { faulty() };
    }
    unsafe { sendto(socket, bytes, moved(size, 1), flags, std::ptr::null(), 0) }
}

/// A connection to the port `MEETS` begins at that port itself, as the system may choose it: where nobody listens there, it meets itself.
#[unsafe(no_mangle)]
pub unsafe extern "C" fn connect(socket: c_int, address: *const c_void, size: u32) -> c_int {
    unsafe {
        let port = u16::from_be_bytes([*(address as *const u8).add(2), *(address as *const u8).add(3)]);
        if u64::from(port) == MEETS.load(Ordering::Relaxed) && bind(socket, address, size) != 0 {
            // an earlier connection of the port is not forgotten yet
            setsockopt(socket, SOL_SOCKET, SO_REUSEADDR, (&raw const YES).cast(), 4);
            bind(socket, address, size);
        }
        let next: unsafe extern "C" fn(c_int, *const c_void, u32) -> c_int = std::mem::transmute(dlsym(NEXT, c"connect".as_ptr()));
        next(socket, address, size)
    }
}

/// Whether a system call wakes all who sleep at a word. Whoever lets go of a lock wakes one, which must not be lost: nobody would look again.
fn wakes_all(number: i64, operation: usize, count: usize) -> bool {
    number == SYS_FUTEX && operation & FUTEX_COMMANDS == FUTEX_WAKE && count == ALL_SLEEPERS
}

/// The call is made of six words, however many of them it has.
#[unsafe(no_mangle)]
pub unsafe extern "C" fn syscall(number: i64, word: usize, operation: usize, count: usize, fourth: usize, fifth: usize, sixth: usize) -> i64 {
    let loses = LOSES.load(Ordering::Relaxed);
    if loses != 0 && wakes_all(number, operation, count) && WAKES.fetch_add(1, Ordering::Relaxed) % loses == loses - 1 {
        return 0;
    }
    unsafe {
        let next: unsafe extern "C" fn(i64, usize, usize, usize, usize, usize, usize) -> i64 = std::mem::transmute(dlsym(NEXT, c"syscall".as_ptr()));
        next(number, word, operation, count, fourth, fifth, sixth)
    }
}

type Begin = extern "C" fn(*mut c_void) -> *mut c_void;
type Create = unsafe extern "C" fn(*mut c_void, *const c_void, Begin, *mut c_void) -> c_int;

#[unsafe(no_mangle)]
pub unsafe extern "C" fn pthread_create(thread: *mut c_void, kind: *const c_void, begin: Begin, given: *mut c_void) -> c_int {
    if THREADS.fail() {
        return EAGAIN;
    }
    let create: Create = unsafe { std::mem::transmute(dlsym(NEXT, c"pthread_create".as_ptr())) };
    unsafe { create(thread, kind, begin, given) }
}

unsafe fn asked(name: &std::ffi::CStr) -> u64 {
    unsafe {
        let value = getenv(name.as_ptr());
        if value.is_null() { 0 } else { atol(value) as u64 }
    }
}

/// Counting begins with the program itself.
extern "C" fn begin() {
    unsafe {
        READS.set(asked(c"READ"));
        WRITES.set(asked(c"WRITE"));
        THREADS.set(asked(c"THREAD"));
        SHORT.store(asked(c"SHORT"), Ordering::Relaxed);
        MEETS.store(asked(c"MEETS"), Ordering::Relaxed);
        LOSES.store(asked(c"WAKES"), Ordering::Relaxed);
        ALLOCATIONS.set(asked(c"ALLOCATE"));
    }
}

extern "C" fn tell() {
    unsafe { dprintf(2, c"calls %lu %lu %lu %lu\n".as_ptr(), ALLOCATIONS.number(), READS.number(), WRITES.number(), THREADS.number()) };
}

/// A program that can start threads ends by this, which would tell nothing.
#[unsafe(no_mangle)]
pub unsafe extern "C" fn _exit(status: c_int) -> ! {
    unsafe { exit(status) }
}

#[used]
#[unsafe(link_section = ".init_array")]
static BEGIN: extern "C" fn() = begin;
#[used]
#[unsafe(link_section = ".fini_array")]
static TELL: extern "C" fn() = tell;
