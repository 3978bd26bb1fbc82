//! The runs of a shared library that is loaded by its file.
use draw::Lent;
use std::ffi::{c_char, c_int, c_void, CStr, CString};
use std::fs;
use std::path::Path;

const RTLD_NOW: c_int = 2;

extern "C" {
    fn dlopen(file: *const c_char, mode: c_int) -> *mut c_void;
    fn dlsym(library: *mut c_void, name: *const c_char) -> *mut c_void;
}

/// A run that sets two numbers, three, four or five. Before version 0.7.0 the sweeps made are not among them, and before
/// 0.8.0 the rounded pairs are not.
#[rustfmt::skip]
type RunOf2 = unsafe extern "C" fn(
    usize, usize, *const f64, usize, *mut f64, usize, *mut f64, usize, *mut usize, *mut usize,
) -> u8;
#[rustfmt::skip]
type RunOf3 = unsafe extern "C" fn(
    usize, usize, *const f64, usize, *mut f64, usize, *mut f64, usize, *mut usize, *mut usize, *mut usize,
) -> u8;
#[rustfmt::skip]
type RunOf4 = unsafe extern "C" fn(
    usize, usize, *const f64, usize, *mut f64, usize, *mut f64, usize, *mut usize, *mut usize, *mut usize, *mut usize,
) -> u8;
#[rustfmt::skip]
type RunOf5 = unsafe extern "C" fn(
    usize, usize, *const f64, usize, *mut f64, usize, *mut f64, usize, *mut usize, *mut usize, *mut usize, *mut usize,
    *mut usize,
) -> u8;

/// The plain run and the array's run.
enum Runs {
    WithoutSweeps(RunOf2, RunOf3),
    WithSweeps(RunOf3, RunOf4),
    WithRounded(RunOf4, RunOf5),
}

/// Whether a run is accepted that is lent this and these numbers.
macro_rules! accepts {
    ($run:expr, $lent:ident, $($number:ident),*) => {{
        $(let mut $number = 0;)*
        // SAFETY: each pointer leads to as many values as the length after it says.
        let answer = unsafe {
            $run(
                $lent.n,
                $lent.sweeps,
                $lent.matrix.as_ptr(),
                $lent.matrix.len(),
                $lent.result.as_mut_ptr(),
                $lent.result.len(),
                $lent.vectors.as_mut_ptr(),
                $lent.vectors.len(),
                $(&mut $number),*
            )
        };
        answer == 0
    }};
}

pub struct Library(Runs);

impl Library {
    /// Loads PREFIX/lib/libweimrukas.so, of which PREFIX/include/weimrukas.h tells what the runs take.
    pub fn load(file: &str) -> Library {
        let prefix = Path::new(file).ancestors().nth(2).expect("a folder");
        let header = fs::read_to_string(prefix.join("include/weimrukas.h")).expect("a header");
        let name = CString::new(file).expect("a file name has no NUL");
        // SAFETY: the library has no code that runs when it is loaded, and its header says what the two functions take.
        unsafe {
            let library = dlopen(name.as_ptr(), RTLD_NOW);
            assert!(!library.is_null(), "{file} cannot be loaded");
            let function = |name: &CStr| {
                let found = dlsym(library, name.as_ptr());
                assert!(!found.is_null(), "{file} has no {name:?}");
                found
            };
            let plain_run = function(c"weimrukas_plain_run");
            let array_run = function(c"weimrukas_array_run");
            Library(if header.contains("size_t *WEIMRUKAS_RESTRICT rounded") {
                Runs::WithRounded(
                    std::mem::transmute::<*mut c_void, RunOf4>(plain_run),
                    std::mem::transmute::<*mut c_void, RunOf5>(array_run),
                )
            } else if header.contains("sweeps_made") {
                Runs::WithSweeps(
                    std::mem::transmute::<*mut c_void, RunOf3>(plain_run),
                    std::mem::transmute::<*mut c_void, RunOf4>(array_run),
                )
            } else {
                Runs::WithoutSweeps(
                    std::mem::transmute::<*mut c_void, RunOf2>(plain_run),
                    std::mem::transmute::<*mut c_void, RunOf3>(array_run),
                )
            })
        }
    }

    pub fn plain_run(&self, lent: &mut Lent) -> bool {
        match self.0 {
            Runs::WithoutSweeps(run, _) => accepts!(run, lent, row, column),
            Runs::WithSweeps(run, _) => accepts!(run, lent, sweeps, row, column),
            Runs::WithRounded(run, _) => accepts!(run, lent, sweeps, rounded, row, column),
        }
    }

    pub fn array_run(&self, lent: &mut Lent) -> bool {
        match self.0 {
            Runs::WithoutSweeps(_, run) => accepts!(run, lent, ticks, row, column),
            Runs::WithSweeps(_, run) => accepts!(run, lent, sweeps, ticks, row, column),
            Runs::WithRounded(_, run) => {
                accepts!(run, lent, sweeps, ticks, rounded, row, column)
            }
        }
    }
}
