//! Makes a stream of two batches of texts, checks each batch, and prints its texts. One batch has a text that is not
//! UTF-8: the check rejects it.

use arrow2_proved::c_data::{ArrowArray, ArrowArrayStream, ArrowSchema, Stream};
use core::ffi::{c_int, c_void};
use std::ptr;

static OFFSETS: [i32; 4] = [0, 1, 3, 5];
static BATCHES: [&[u8; 5]; 2] = [b"a\xc3\xa9xy", b"ab\xc3\xa9y"];

unsafe extern "C" fn release_schema(schema: *mut ArrowSchema) {
    // SAFETY: the interface hands in the pointers that it was given.
    unsafe { (*schema).release = None }
}

unsafe extern "C" fn release_array(array: *mut ArrowArray) {
    // SAFETY: as above; the buffers were boxed by `get_next`.
    unsafe {
        drop(Box::from_raw((*array).private_data.cast::<[*const c_void; 3]>()));
        (*array).release = None;
    }
}

unsafe extern "C" fn release_stream(stream: *mut ArrowArrayStream) {
    // SAFETY: as above; the number was boxed by `open`.
    unsafe {
        drop(Box::from_raw((*stream).private_data.cast::<usize>()));
        (*stream).release = None;
    }
}

unsafe extern "C" fn get_schema(_: *mut ArrowArrayStream, out: *mut ArrowSchema) -> c_int {
    let schema = ArrowSchema {
        format: c"u".as_ptr(),
        name: c"names".as_ptr(),
        metadata: ptr::null(),
        flags: 0,
        n_children: 0,
        children: ptr::null_mut(),
        dictionary: ptr::null_mut(),
        release: Some(release_schema),
        private_data: ptr::null_mut(),
    };
    // SAFETY: the caller's memory for a schema.
    unsafe { out.write(schema) };
    0
}

unsafe extern "C" fn get_next(stream: *mut ArrowArrayStream, out: *mut ArrowArray) -> c_int {
    // SAFETY: the number that `open` boxed.
    let next = unsafe { &mut *(*stream).private_data.cast::<usize>() };
    let batch = BATCHES.get(*next);
    *next += 1;
    let values = batch.map_or(ptr::null(), |bytes| bytes.as_ptr());
    let buffers = Box::into_raw(Box::new([ptr::null(), OFFSETS.as_ptr().cast(), values.cast::<c_void>()]));
    let array = ArrowArray {
        length: 3,
        null_count: 0,
        offset: 0,
        n_buffers: 3,
        n_children: 0,
        buffers: buffers.cast(),
        children: ptr::null_mut(),
        dictionary: ptr::null_mut(),
        release: Some(release_array),
        private_data: buffers.cast(),
    };
    // SAFETY: the caller's memory for an array.
    unsafe {
        out.write(array);
        if batch.is_none() {
            release_array(out);
        }
    }
    0
}

fn open() -> Stream {
    let raw = ArrowArrayStream {
        get_schema: Some(get_schema),
        get_next: Some(get_next),
        get_last_error: None,
        release: Some(release_stream),
        private_data: Box::into_raw(Box::new(0_usize)).cast(),
    };
    // SAFETY: the functions above follow the interface.
    unsafe { Stream::from_raw(raw) }
}

fn main() {
    let mut stream = open();
    while let Some(batch) = stream.next_batch().expect("a batch") {
        match batch.check() {
            Ok(view) => {
                let texts: Vec<_> =
                    (0..view.len()).filter_map(|slot| view.slot(slot)).map(String::from_utf8_lossy).collect();
                println!("{} rows: {}", view.len(), texts.join(" "));
            }
            Err(rejected) => println!("rejected: {rejected}"),
        }
    }
}
