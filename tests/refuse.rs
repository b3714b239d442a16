//! Refuses one allocation of a program that it is loaded into: the one whose number, from 1 on, is
//! in the environment as REFUSE, and by REFUSE_FROM all later ones too; or one start of a thread, by
//! REFUSE_THREAD, and by REFUSE_THREAD_FROM all later ones too. Then it writes `refused` on standard
//! error. All others are the C library's.
//! By CUT_OUT so many bytes of standard output pass, and then a write fails; by CUT_IN so many of
//! standard input, and then a read does. By SLOWLY who has started a thread, or has woken others that wait,
//! sleeps so many milliseconds before it goes on.
//!
//! rustc --edition 2024 -O -C panic=abort --crate-type cdylib refuse.rs

use std::ffi::{CStr, c_char, c_int, c_long, c_uint, c_void};
use std::mem;
use std::ptr;
use std::sync::atomic::{AtomicU64, Ordering::SeqCst};

unsafe extern "C" {
    fn __libc_malloc(size: usize) -> *mut c_void;
    fn __libc_realloc(block: *mut c_void, size: usize) -> *mut c_void;
    fn getenv(name: *const c_char) -> *const c_char;
    fn atoll(text: *const c_char) -> i64;
    fn dlsym(library: *mut c_void, name: *const c_char) -> *mut c_void;
    fn __errno_location() -> *mut c_int;
    fn usleep(microseconds: c_uint) -> c_int;
}

static ALLOCATIONS: AtomicU64 = AtomicU64::new(0);
static THREADS: AtomicU64 = AtomicU64::new(0);
static OUT: AtomicU64 = AtomicU64::new(0);
static IN: AtomicU64 = AtomicU64::new(0);

/// The number under this name in the environment, if it is there.
fn number(name: &CStr) -> Option<u64> {
    let text = unsafe { getenv(name.as_ptr()) };
    if text.is_null() { None } else { Some(unsafe { atoll(text) } as u64) }
}

/// Tells on standard error that a request was refused.
fn tell() -> bool {
    unsafe { pass(c"write", 2, c"refused\n".as_ptr().cast_mut().cast(), 8) };
    true
}

/// Whether a request is to be refused: the one with the number under `one`, or the one under `from` and all later ones.
fn is_refused(asked: &AtomicU64, one: &CStr, from: &CStr) -> bool {
    let (one, from) = (number(one), number(from));
    if one.is_none() && from.is_none() {
        return false;
    }
    let asked = asked.fetch_add(1, SeqCst) + 1;
    (one == Some(asked) || from.is_some_and(|from| from <= asked)) && tell()
}

/// Whether this allocation is to be refused.
fn lacks_memory() -> bool {
    is_refused(&ALLOCATIONS, c"REFUSE", c"REFUSE_FROM")
}

#[unsafe(no_mangle)]
pub extern "C" fn malloc(size: usize) -> *mut c_void {
    if lacks_memory() { ptr::null_mut() } else { unsafe { __libc_malloc(size) } }
}

#[unsafe(no_mangle)]
pub extern "C" fn realloc(block: *mut c_void, size: usize) -> *mut c_void {
    if lacks_memory() { ptr::null_mut() } else { unsafe { __libc_realloc(block, size) } }
}

type Start = extern "C" fn(*mut c_void) -> *mut c_void;
type Create = unsafe extern "C" fn(*mut c_void, *const c_void, Start, *mut c_void) -> c_int;

/// The answer of the C library where no more threads may be started (`EAGAIN`).
const NO_MORE: c_int = 11;

/// The library behind this one (`RTLD_NEXT`).
const NEXT: *mut c_void = usize::MAX as *mut c_void;

#[unsafe(no_mangle)]
pub unsafe extern "C" fn pthread_create(thread: *mut c_void, how: *const c_void, start: Start, with: *mut c_void) -> c_int {
    if is_refused(&THREADS, c"REFUSE_THREAD", c"REFUSE_THREAD_FROM") {
        return NO_MORE;
    }
    let create: Create = unsafe { mem::transmute(dlsym(NEXT, c"pthread_create".as_ptr())) };
    let started = unsafe { create(thread, how, start, with) };
    linger();
    started
}

/// Sleeps for the milliseconds under SLOWLY, if they are there.
fn linger() {
    if let Some(time) = number(c"SLOWLY") {
        unsafe { usleep(1000 * time as c_uint) };
    }
}

/// A system call by its number: `futex` of x86-64 waits at a word, or wakes who waits there, as the lowest bits of its second word say.
type System = unsafe extern "C" fn(c_long, usize, usize, usize, usize, usize, usize) -> c_long;
const FUTEX: c_long = 202;
const WAKES: usize = 1;

#[unsafe(no_mangle)]
pub unsafe extern "C" fn syscall(what: c_long, place: usize, how: usize, count: usize, until: usize, other: usize, value: usize) -> c_long {
    let system: System = unsafe { mem::transmute(dlsym(NEXT, c"syscall".as_ptr())) };
    let answer = unsafe { system(what, place, how, count, until, other, value) };
    if what == FUTEX && how & 127 == WAKES {
        linger();
    }
    answer
}

/// A read or a write.
type Pass = unsafe extern "C" fn(c_int, *mut c_void, usize) -> isize;

/// The C library's read or write.
unsafe fn pass(name: &CStr, file: c_int, bytes: *mut c_void, count: usize) -> isize {
    let call: Pass = unsafe { mem::transmute(dlsym(NEXT, name.as_ptr())) };
    unsafe { call(file, bytes, count) }
}

/// Reads or writes at most what the number under `cut` leaves, of which `passed` bytes have gone; then it fails with `fault`.
unsafe fn cut_off(name: &CStr, cut: &CStr, passed: &AtomicU64, fault: c_int, file: c_int, bytes: *mut c_void, count: usize) -> isize {
    let Some(most) = number(cut) else { return unsafe { pass(name, file, bytes, count) } };
    let left = most.saturating_sub(passed.load(SeqCst)) as usize;
    if left == 0 && count > 0 {
        unsafe { *__errno_location() = fault };
        return -1;
    }
    let went = unsafe { pass(name, file, bytes, count.min(left)) };
    if went > 0 {
        passed.fetch_add(went as u64, SeqCst);
    }
    went
}

/// A full disk, and an input that fails (`ENOSPC`, `EIO`).
const FULL: c_int = 28;
const BROKEN: c_int = 5;

#[unsafe(no_mangle)]
pub unsafe extern "C" fn write(file: c_int, bytes: *mut c_void, count: usize) -> isize {
    if file != 1 {
        return unsafe { pass(c"write", file, bytes, count) };
    }
    unsafe { cut_off(c"write", c"CUT_OUT", &OUT, FULL, file, bytes, count) }
}

#[unsafe(no_mangle)]
pub unsafe extern "C" fn read(file: c_int, bytes: *mut c_void, count: usize) -> isize {
    if file != 0 {
        return unsafe { pass(c"read", file, bytes, count) };
    }
    unsafe { cut_off(c"read", c"CUT_IN", &IN, BROKEN, file, bytes, count) }
}
