//! What is asked of the system: the processor time of a thread, and another build of the library from a shared object. All unsafe code of
//! this crate is here.

use napsilo::Lent;
use std::ffi::{CStr, CString, c_char, c_void};
use std::sync::OnceLock;
use std::time::Duration;

/// C's `struct timespec`.
#[repr(C)]
struct Timespec {
    seconds: i64,
    nanoseconds: i64,
}

unsafe extern "C" {
    fn clock_gettime(clock: i32, time: *mut Timespec) -> i32;
    fn dlopen(path: *const c_char, flags: i32) -> *mut c_void;
    fn dlsym(library: *mut c_void, name: *const c_char) -> *mut c_void;
}

/// The processor time that this thread took so far.
fn now() -> Duration {
    const CLOCK_THREAD_CPUTIME_ID: i32 = 3;
    let mut time = Timespec { seconds: 0, nanoseconds: 0 };
    // SAFETY: the pointer is to a `timespec` that lives through the call.
    let said = unsafe { clock_gettime(CLOCK_THREAD_CPUTIME_ID, &raw mut time) };
    assert_eq!(said, 0);
    Duration::new(time.seconds.unsigned_abs(), u32::try_from(time.nanoseconds).expect("under a second"))
}

/// The processor time that a work takes, and what it gives. What the clock takes itself is not in it.
pub fn timed<T>(work: impl FnOnce() -> T) -> (Duration, T) {
    static CLOCK: OnceLock<Duration> = OnceLock::new();
    let clock = CLOCK.get_or_init(|| {
        let once = || {
            let start = now();
            now() - start
        };
        (0..1_000).map(|_| once()).min().unwrap_or_default()
    });
    let start = now();
    let given = work();
    ((now() - start).saturating_sub(*clock), given)
}

type Judge =
    unsafe extern "C" fn(*const u8, usize, *mut u8, usize, *mut u32, usize, *mut u32, usize, *mut u32, usize) -> u32;

/// `napsilo_judge` of another build of the library.
pub struct Other(Judge);

impl Other {
    /// Loads a shared object; nothing if it cannot be loaded or has no such function.
    pub fn load(path: &str) -> Option<Self> {
        const RTLD_NOW: i32 = 2;
        let path = CString::new(path).ok()?;
        let name: &CStr = c"napsilo_judge";
        // SAFETY: both strings end in a zero and live through the calls. The object is never closed. The function found is taken for
        // `napsilo_judge`, which has this type in every build of the library.
        unsafe {
            let library = dlopen(path.as_ptr(), RTLD_NOW);
            if library.is_null() {
                return None;
            }
            let found = dlsym(library, name.as_ptr());
            if found.is_null() { None } else { Some(Other(std::mem::transmute::<*mut c_void, Judge>(found))) }
        }
    }

    /// Judges a sheet into the lent buffers: the number that is said.
    pub fn judge(&self, sheet: &[u8], buffers: &mut Buffers) -> u32 {
        let Buffers { records, places, rows, answers } = buffers;
        // SAFETY: each pointer and length is a Rust slice's; the four buffers are borrowed exclusively.
        unsafe {
            (self.0)(
                sheet.as_ptr(),
                sheet.len(),
                records.as_mut_ptr(),
                records.len(),
                places.as_mut_ptr(),
                places.len(),
                rows.as_mut_ptr(),
                rows.len(),
                answers.as_mut_ptr(),
                answers.len(),
            )
        }
    }
}

/// The four buffers that are lent.
#[derive(PartialEq, Eq)]
pub struct Buffers {
    pub records: Vec<u8>,
    pub places: Vec<u32>,
    pub rows: Vec<u32>,
    pub answers: Vec<u32>,
}

impl Buffers {
    /// Buffers of these lengths.
    pub fn new(lent: Lent) -> Self {
        let [places, rows, answers] = [lent.places, lent.rows, lent.answers].map(|length| vec![0; length]);
        Buffers { records: vec![0; lent.records], places, rows, answers }
    }
}
