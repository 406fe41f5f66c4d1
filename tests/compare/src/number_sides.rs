//! Those who read and write numbers: the model, and the crate `numbers`. No call of
//! include/venue.h writes numbers that may not fit, so the crate comes as a shared
//! library of its own, one for each checkout.

use crate::model::{byte_count, read_number, write_number, Refusal};
use std::ffi::{c_char, c_int, c_void, CString};
use std::io;

/// The refusals of numbers.
pub const REFUSALS: [Refusal; 3] = [Refusal::MissingByte, Refusal::BadNumber, Refusal::NoRoom];

pub type Answer<T> = Result<T, Refusal>;

/// A number with its end.
pub type NumberRead = Answer<(u64, usize)>;

/// A side, which reads a number at an offset, and writes numbers at an offset and
/// gives their end.
pub trait Side {
    fn read(&self, bytes: &[u8], at: usize) -> NumberRead;
    fn write(&self, bytes: &mut [u8], at: usize, numbers: &[u64]) -> Answer<usize>;
}

pub struct Model;

impl Side for Model {
    fn read(&self, bytes: &[u8], at: usize) -> NumberRead {
        read_number(bytes, at)
    }

    /// "13 if it doesn't fit the lent buffer from there"
    fn write(&self, bytes: &mut [u8], at: usize, numbers: &[u64]) -> Answer<usize> {
        let count = numbers.iter().map(|&number| byte_count(number)).sum();
        match at.checked_add(count) {
            Some(end) if end <= bytes.len() => {
                let write = |at, &number| write_number(bytes, at, number);
                Ok(numbers.iter().fold(at, write))
            }
            _ => Err(Refusal::NoRoom),
        }
    }
}

/// Bytes, an offset, and a place each for the number and its end.
type ReadCall =
    unsafe extern "C" fn(*const u8, usize, usize, *mut u64, usize, *mut u64, usize) -> u32;
/// Bytes, an offset, the numbers, and a place for their end.
type WriteCall =
    unsafe extern "C" fn(*mut u8, usize, usize, *const u64, usize, *mut u64, usize) -> u32;

/// The crate `numbers` behind the calls of numbers_calls.txt.
pub struct Library {
    read: ReadCall,
    write: WriteCall,
}

const RTLD_NOW: c_int = 2;

extern "C" {
    fn dlopen(path: *const c_char, flags: c_int) -> *mut c_void;
    fn dlsym(library: *mut c_void, name: *const c_char) -> *mut c_void;
}

impl Library {
    pub fn open(path: &str) -> io::Result<Self> {
        let failed = || io::Error::other(format!("{path} isn't a library of numbers"));
        let name = CString::new(path)?;
        // SAFETY: the name ends with 0. A library of run_numbers runs nothing of its
        // own when it is loaded, and it stays open, as its calls are kept.
        let library = unsafe { dlopen(name.as_ptr(), RTLD_NOW) };
        if library.is_null() {
            return Err(failed());
        }
        // SAFETY: the names end with 0, and the library is open.
        let read = unsafe { dlsym(library, c"number_read".as_ptr()) };
        let write = unsafe { dlsym(library, c"numbers_write".as_ptr()) };
        if read.is_null() || write.is_null() {
            return Err(failed());
        }
        // SAFETY: numbers_calls.txt gives the calls these parameters.
        Ok(Library {
            read: unsafe { std::mem::transmute::<*mut c_void, ReadCall>(read) },
            write: unsafe { std::mem::transmute::<*mut c_void, WriteCall>(write) },
        })
    }
}

/// The refusal of this number, of those that numbers have.
fn refusal(number: u32) -> Refusal {
    let mut known = REFUSALS.into_iter();
    let found = known.find(|refusal| refusal.number() == number);
    found.expect("a refusal of numbers")
}

impl Side for Library {
    /// Number and end have a place of their own: as one pair they would be taken
    /// out at once, which waits for both.
    fn read(&self, bytes: &[u8], at: usize) -> NumberRead {
        let (mut number, mut end) = (0, 0);
        let (call, len) = (self.read, bytes.len());
        // SAFETY: pointers and lengths are those of slices and places lent for the
        // call, which requires one place for each.
        match unsafe { call(bytes.as_ptr(), len, at, &mut number, 1, &mut end, 1) } {
            0 => Ok((number, end as usize)),
            refused => Err(refusal(refused)),
        }
    }

    fn write(&self, bytes: &mut [u8], at: usize, numbers: &[u64]) -> Answer<usize> {
        let mut end = 0;
        let (call, len, count) = (self.write, bytes.len(), numbers.len());
        let (bytes, numbers) = (bytes.as_mut_ptr(), numbers.as_ptr());
        // SAFETY: as in `read`.
        match unsafe { call(bytes, len, at, numbers, count, &mut end, 1) } {
            0 => Ok(end as usize),
            refused => Err(refusal(refused)),
        }
    }
}
