//! The structs of the interface, as its specification declares them.

use core::ffi::{c_char, c_int, c_void};

/// The type of an array.
#[repr(C)]
#[derive(Debug)]
pub struct ArrowSchema {
    /// The type, in the interface's letters.
    pub format: *const c_char,
    /// The name of the field, or null.
    pub name: *const c_char,
    /// Keys and values, or null.
    pub metadata: *const c_char,
    /// Whether a dictionary is ordered, items may be null, keys are sorted.
    pub flags: i64,
    /// The number of children.
    pub n_children: i64,
    /// The types of the children.
    pub children: *mut *mut ArrowSchema,
    /// The type of the dictionary, or null.
    pub dictionary: *mut ArrowSchema,
    /// Frees all that the struct holds; null once that was done.
    pub release: Option<unsafe extern "C" fn(*mut ArrowSchema)>,
    /// The producer's own.
    pub private_data: *mut c_void,
}

/// An array.
#[repr(C)]
#[derive(Debug)]
pub struct ArrowArray {
    /// The number of items.
    pub length: i64,
    /// The number of nulls, or -1.
    pub null_count: i64,
    /// The index of the first item in the buffers.
    pub offset: i64,
    /// The number of buffers.
    pub n_buffers: i64,
    /// The number of children.
    pub n_children: i64,
    /// The buffers.
    pub buffers: *mut *const c_void,
    /// The children.
    pub children: *mut *mut ArrowArray,
    /// The dictionary, or null.
    pub dictionary: *mut ArrowArray,
    /// Frees all that the struct holds; null once that was done.
    pub release: Option<unsafe extern "C" fn(*mut ArrowArray)>,
    /// The producer's own.
    pub private_data: *mut c_void,
}

/// Arrays of one schema, one after the other.
#[repr(C)]
#[derive(Debug)]
pub struct ArrowArrayStream {
    /// Writes the schema, and returns 0 or an `errno`.
    pub get_schema: Option<unsafe extern "C" fn(*mut ArrowArrayStream, *mut ArrowSchema) -> c_int>,
    /// Writes the next array, or after the last one an array whose `release` is null. Returns 0 or an `errno`.
    pub get_next: Option<unsafe extern "C" fn(*mut ArrowArrayStream, *mut ArrowArray) -> c_int>,
    /// The text of the last error, or null. It may be called only if the last call returned an error.
    pub get_last_error: Option<unsafe extern "C" fn(*mut ArrowArrayStream) -> *const c_char>,
    /// Frees all that the struct holds; null once that was done.
    pub release: Option<unsafe extern "C" fn(*mut ArrowArrayStream)>,
    /// The producer's own.
    pub private_data: *mut c_void,
}
