//! The arrays of `bindings/c/hostile.c`, each with the result that a check must return, given to the check in Rust.

use arrow2_proved::c_data::{ArrowArray, ArrowSchema, check_raw};
use core::ffi::{c_char, c_int};
use core::slice;
use std::fmt::Write;

/// As `arrow2_c_data.h` declares it.
#[repr(C)]
struct Where {
    path: [c_char; 1280],
    slot: i64,
}

type Check = unsafe extern "C" fn(*const ArrowSchema, *const ArrowArray, *const usize, usize, *mut Where) -> u32;

#[link(name = "arrow2_hostile", kind = "static")]
unsafe extern "C" {
    fn arrow2_hostile_run(check: Check, pages: bool) -> c_int;
}

/// The check in Rust, in the form that C gives it.
unsafe extern "C" fn in_rust(
    schema: *const ArrowSchema,
    array: *const ArrowArray,
    sizes: *const usize,
    count: usize,
    position: *mut Where,
) -> u32 {
    // SAFETY: C hands in sizes or null, and an index or null.
    let sizes = (!sizes.is_null()).then(|| unsafe { slice::from_raw_parts(sizes, count) });
    match unsafe { check_raw(schema, array, sizes) } {
        Ok(()) => 0,
        Err(rejected) => {
            // SAFETY: as above.
            if let Some(position) = unsafe { position.as_mut() } {
                let mut path = String::new();
                write!(path, "{}", rejected.path).unwrap();
                position.slot = rejected.slot.map_or(-1, |slot| slot as i64);
                position.path.fill(0);
                for (to, from) in position.path[..1279].iter_mut().zip(path.bytes()) {
                    *to = from as c_char;
                }
            }
            rejected.broken.code()
        }
    }
}

/// One test: the arrays in C are made with the help of globals.
#[test]
fn hostile_arrays_are_rejected_and_nothing_is_read_outside() {
    // SAFETY: the library makes its arrays itself, and no other thread calls it.
    let failed = [false, true].map(|pages| unsafe { arrow2_hostile_run(in_rust, pages) });
    assert_eq!(failed, [0, 0]);
}
