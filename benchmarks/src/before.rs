//! The calls of an archive, loaded from the shared object that `benchmarks/run` makes of it. So this archive
//! and an earlier one, whose calls have the same names, are called in one run and in the same way.

use crate::{Bench, Certify, Path, Trim};
use compare::unpacked;
use std::ffi::{c_char, c_int, c_void, CStr, CString};
use std::mem::transmute;

extern "C" {
    fn dlopen(path: *const c_char, flags: c_int) -> *mut c_void;
    fn dlsym(library: *mut c_void, name: *const c_char) -> *mut c_void;
}

/// Every name that the library uses is found at once.
const RTLD_NOW: c_int = 2;

type CertifyCall = unsafe extern "C" fn(*const u8, usize, *mut u8, usize, *mut u16, usize) -> u64;
type BenchCall =
    unsafe extern "C" fn(*const u8, usize, *const u8, usize, *mut u32, usize, *mut u16, usize) -> u64;
type TrimCall = unsafe extern "C" fn(
    *const u8,
    usize,
    *const u8,
    usize,
    *const u16,
    usize,
    *mut u8,
    usize,
    *mut u16,
    usize,
    *mut u16,
    usize,
) -> u64;

type PathCall = unsafe extern "C" fn(*const u8, usize, u32, *mut u16, usize, *mut u16, usize) -> u64;

/// An archive's calls on tables. They stay loaded.
pub struct Archive {
    pub certify: &'static Certify,
    pub bench: &'static Bench,
    /// Not every archive trims, nor traces.
    pub trim: Option<&'static Trim>,
    pub path: Option<&'static Path>,
}

impl Archive {
    /// The archive of which this shared object is made.
    pub fn load(file: &str) -> Archive {
        let name = CString::new(file).expect("a path has no byte 0");
        // SAFETY: the path is a C string, and an archive has no code that runs when it is loaded.
        let library = unsafe { dlopen(name.as_ptr(), RTLD_NOW) };
        assert!(!library.is_null(), "{file} cannot be loaded");
        let found = |name: &CStr| {
            // SAFETY: the library is loaded, and the name is a C string.
            let call = unsafe { dlsym(library, name.as_ptr()) };
            (!call.is_null()).then_some(call)
        };
        let expected = |name: &CStr| found(name).unwrap_or_else(|| panic!("{file} has no {name:?}"));
        // SAFETY: include/lambdac.h declares the calls with these types.
        unsafe {
            Archive {
                certify: certify(transmute::<*mut c_void, CertifyCall>(expected(c"lambdac_certify"))),
                bench: bench(transmute::<*mut c_void, BenchCall>(expected(c"lambdac_bench"))),
                trim: found(c"lambdac_trim").map(|call| trim(transmute::<*mut c_void, TrimCall>(call))),
                path: found(c"lambdac_path").map(|call| path(transmute::<*mut c_void, PathCall>(call))),
            }
        }
    }
}

fn certify(call: CertifyCall) -> &'static Certify {
    Box::leak(Box::new(move |table: &[u8], certificate: &mut [u8], scratch: &mut [u16]| {
        let (t, c, s) = (table.as_ptr(), certificate.as_mut_ptr(), scratch.as_mut_ptr());
        // SAFETY: each pointer and length are those of one slice, and borrowed slices do not overlap.
        unpacked(unsafe { call(t, table.len(), c, certificate.len(), s, scratch.len()) })
    }))
}

fn bench(call: BenchCall) -> &'static Bench {
    Box::leak(Box::new(move |table: &[u8], list: &[u8], values: &mut [u32], scratch: &mut [u16]| {
        let (t, l, v, s) = (table.as_ptr(), list.as_ptr(), values.as_mut_ptr(), scratch.as_mut_ptr());
        // SAFETY: as above; the two that are only read may overlap.
        let answer = unsafe { call(t, table.len(), l, list.len(), v, values.len(), s, scratch.len()) };
        unpacked(answer).map(|_| ())
    }))
}

fn path(call: PathCall) -> &'static Path {
    Box::leak(Box::new(move |table: &[u8], variable: u32, row: &mut [u16], scratch: &mut [u16]| {
        let (t, r, s) = (table.as_ptr(), row.as_mut_ptr(), scratch.as_mut_ptr());
        // SAFETY: as above.
        unpacked(unsafe { call(t, table.len(), variable, r, row.len(), s, scratch.len()) })
    }))
}

fn trim(call: TrimCall) -> &'static Trim {
    Box::leak(Box::new(
        move |table: &[u8],
              certificate: &[u8],
              kept: &[u16],
              trimmed: &mut [u8],
              numbers: &mut [u16],
              scratch: &mut [u16]| {
            // SAFETY: as above.
            unpacked(unsafe {
                call(
                    table.as_ptr(),
                    table.len(),
                    certificate.as_ptr(),
                    certificate.len(),
                    kept.as_ptr(),
                    kept.len(),
                    trimmed.as_mut_ptr(),
                    trimmed.len(),
                    numbers.as_mut_ptr(),
                    numbers.len(),
                    scratch.as_mut_ptr(),
                    scratch.len(),
                )
            })
        },
    ))
}
