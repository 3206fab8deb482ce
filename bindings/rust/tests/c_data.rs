//! Owners release once; views show checked arrays.

use arrow2_proved::c_data::{
    Array, ArrowArray, ArrowArrayStream, ArrowSchema, Broken, Offsets, Schema, Stream, StreamError,
};
use arrow2_proved::{Bits, Error};
use core::ffi::{CStr, c_int, c_void};
use std::cell::Cell;
use std::ptr;
use std::rc::Rc;

/// How often the arrays of a test were released.
type Releases = Cell<usize>;

unsafe extern "C" fn release_schema(schema: *mut ArrowSchema) {
    // SAFETY: the test's counter outlives the array.
    unsafe { count(&mut (*schema).private_data) };
    unsafe { (*schema).release = None };
}

unsafe extern "C" fn release_array(array: *mut ArrowArray) {
    // SAFETY: as above.
    unsafe { count(&mut (*array).private_data) };
    unsafe { (*array).release = None };
}

unsafe fn count(private_data: &mut *mut c_void) {
    // SAFETY: the caller's.
    let releases = unsafe { &*private_data.cast::<Releases>() };
    releases.set(releases.get() + 1);
}

fn schema(releases: &Releases, format: &'static CStr) -> ArrowSchema {
    ArrowSchema {
        format: format.as_ptr(),
        name: c"name".as_ptr(),
        metadata: ptr::null(),
        flags: 0,
        n_children: 0,
        children: ptr::null_mut(),
        dictionary: ptr::null_mut(),
        release: Some(release_schema),
        private_data: ptr::from_ref(releases).cast_mut().cast(),
    }
}

fn array(releases: &Releases, length: i64, offset: i64, buffers: &mut [*const c_void]) -> ArrowArray {
    ArrowArray {
        length,
        null_count: -1,
        offset,
        n_buffers: buffers.len() as i64,
        n_children: 0,
        buffers: buffers.as_mut_ptr(),
        children: ptr::null_mut(),
        dictionary: ptr::null_mut(),
        release: Some(release_array),
        private_data: ptr::from_ref(releases).cast_mut().cast(),
    }
}

/// The owner of a schema.
fn of_type(releases: &Releases, format: &'static CStr) -> Rc<Schema> {
    // SAFETY: the format is static, and the counter outlives the schema.
    Rc::new(unsafe { Schema::from_raw(schema(releases, format)) })
}

static OFFSETS: [i32; 4] = [0, 1, 3, 5];
static VALID: [u8; 1] = [0b101];

fn texts(values: &'static [u8; 5]) -> [*const c_void; 3] {
    [VALID.as_ptr().cast(), OFFSETS.as_ptr().cast(), values.as_ptr().cast()]
}

#[test]
fn each_owner_releases_once() {
    let releases = Releases::new(0);
    let mut buffers = texts(b"a\xc3\xa9xy");
    let texts = of_type(&releases, c"u");
    // SAFETY, of all below: the buffers have the length that the format requires, and outlive the owners.
    let moved = unsafe { Array::from_raw(array(&releases, 3, 0, &mut buffers), Rc::clone(&texts)) }.into_raw();
    assert_eq!(releases.get(), 0);
    let owner = unsafe { Array::from_raw(moved, Rc::clone(&texts)) };
    assert!(owner.check().is_ok() && ptr::eq(owner.schema().as_raw(), texts.as_raw()));
    drop(owner);
    assert_eq!(releases.get(), 1);
    drop(texts);
    assert_eq!(releases.get(), 2);
}

#[test]
fn a_view_shows_the_array() {
    let releases = Releases::new(0);
    let mut buffers = texts(b"a\xc3\xa9xy");
    let owner = unsafe { Array::from_raw(array(&releases, 2, 1, &mut buffers), of_type(&releases, c"u")) };
    let view = owner.check().unwrap();
    assert_eq!((view.len(), view.is_empty(), view.offset(), view.name()), (2, false, 1, Some(c"name")));
    let Bits { bytes, offset } = view.validity().unwrap();
    assert_eq!((bytes, offset), (&[0b101_u8][..], 1));
    assert_eq!(view.offsets(), Some(Offsets::Narrow(&[1, 3, 5])));
    assert_eq!(view.bytes(), Some(&b"a\xc3\xa9xy"[..]));
    assert_eq!(view.slot(0), Some("é".as_bytes()));
    assert_eq!(view.slot(1), Some(&b"xy"[..]));
    assert_eq!(view.slot(2), None);
    assert!(view.booleans().is_none() && view.child(0).is_none() && view.dictionary().is_none());
}

#[test]
fn values_of_one_width_begin_at_the_first_item() {
    static PRICES: [i16; 3] = [30, 40, 50];
    let releases = Releases::new(0);
    let mut buffers = [ptr::null(), PRICES.as_ptr().cast()];
    let numbers = of_type(&releases, c"s");
    let owner = unsafe { Array::from_raw(array(&releases, 2, 1, &mut buffers), Rc::clone(&numbers)) };
    let view = owner.check().unwrap();
    assert_eq!(view.bytes(), Some(&[40, 0, 50, 0][..]));
    assert!(view.validity().is_none() && view.offsets().is_none());
    for (size, expected) in [(6, None), (5, Some(Broken::Part(Error::Range)))] {
        let raw = array(&releases, 2, 1, &mut buffers);
        let sized = unsafe { Array::from_raw_sized(raw, Rc::clone(&numbers), vec![0, size]) };
        assert_eq!(sized.check().err().map(|rejected| rejected.broken), expected);
    }
}

#[test]
fn of_no_item_no_offset_is_read() {
    let releases = Releases::new(0);
    let nowhere: *const c_void = ptr::without_provenance(1);
    let mut buffers = [ptr::null(), nowhere, ptr::null()];
    let texts = of_type(&releases, c"u");
    let owner = unsafe { Array::from_raw(array(&releases, 0, 2, &mut buffers), Rc::clone(&texts)) };
    let view = owner.check().unwrap();
    assert_eq!(view.offsets(), Some(Offsets::Narrow(&[0])));
    assert_eq!((view.bytes(), view.slot(0)), (Some(&[][..]), None));
    let sized = unsafe { Array::from_raw_sized(owner.into_raw(), texts, vec![0; 3]) };
    assert_eq!(sized.check().unwrap().offsets(), Some(Offsets::Narrow(&[0])));
}

#[test]
fn of_no_item_no_boolean_is_read() {
    let releases = Releases::new(0);
    let nowhere: *const c_void = ptr::without_provenance(1);
    let mut buffers = [ptr::null(), nowhere];
    let owner = unsafe { Array::from_raw(array(&releases, 0, 9, &mut buffers), of_type(&releases, c"b")) };
    let view = owner.check().unwrap();
    let Bits { bytes, offset } = view.booleans().unwrap();
    assert_eq!((bytes, offset), (&[][..], 0));
    assert!(view.validity().is_none());
}

#[test]
fn what_is_rejected_has_no_view() {
    let releases = Releases::new(0);
    let mut buffers = texts(b"ab\xc3\xa9y");
    let owner = unsafe { Array::from_raw(array(&releases, 3, 0, &mut buffers), of_type(&releases, c"u")) };
    let rejected = owner.check().unwrap_err();
    assert_eq!((rejected.broken, rejected.slot), (Broken::Part(Error::NotUtf8), Some(1)));
    assert_eq!(rejected.to_string(), "\"\": a text is not UTF-8 at slot 1");
}

unsafe extern "C" fn fail(_: *mut ArrowArrayStream, _: *mut ArrowSchema) -> c_int {
    5
}

unsafe extern "C" fn numbers(stream: *mut ArrowArrayStream, out: *mut ArrowSchema) -> c_int {
    // SAFETY: the counter of the stream outlives it, and `out` is the caller's memory for a schema.
    unsafe { out.write(schema(&*(*stream).private_data.cast::<Releases>(), c"s")) };
    0
}

unsafe extern "C" fn released(_: *mut ArrowArrayStream, out: *mut ArrowSchema) -> c_int {
    // SAFETY: the caller's memory for a schema.
    unsafe { (*out).release = None };
    0
}

/// Writes that there is no array, and breaks the stream: it must not be called again.
unsafe extern "C" fn last(stream: *mut ArrowArrayStream, out: *mut ArrowArray) -> c_int {
    // SAFETY: the caller's stream, and its memory for an array.
    unsafe {
        (*stream).get_next = None;
        (*out).release = None;
    }
    0
}

unsafe extern "C" fn text(_: *mut ArrowArrayStream) -> *const core::ffi::c_char {
    c"no schema".as_ptr()
}

unsafe extern "C" fn release_stream(stream: *mut ArrowArrayStream) {
    // SAFETY: as above.
    unsafe { count(&mut (*stream).private_data) };
    unsafe { (*stream).release = None };
}

fn stream(
    releases: &Releases,
    get_schema: unsafe extern "C" fn(*mut ArrowArrayStream, *mut ArrowSchema) -> c_int,
) -> Stream {
    let raw = ArrowArrayStream {
        get_schema: Some(get_schema),
        get_next: Some(last),
        get_last_error: Some(text),
        release: Some(release_stream),
        private_data: ptr::from_ref(releases).cast_mut().cast(),
    };
    // SAFETY: the functions follow the interface.
    unsafe { Stream::from_raw(raw) }
}

#[test]
fn a_stream_that_fails_says_why() {
    let releases = Releases::new(0);
    let mut stream = stream(&releases, fail);
    assert_eq!(stream.last_error(), None);
    assert_eq!(stream.schema().unwrap_err(), StreamError::Code(5));
    assert_eq!(stream.last_error(), Some(c"no schema"));
    assert_eq!(stream.next_batch().unwrap_err(), StreamError::Code(5));
    drop(stream);
    assert_eq!(releases.get(), 1);
}

#[test]
fn a_stream_without_a_schema_has_no_arrays() {
    let releases = Releases::new(0);
    let mut stream = stream(&releases, released);
    assert_eq!(stream.schema().unwrap_err(), StreamError::Released);
    assert_eq!((stream.next_batch().unwrap_err(), stream.last_error()), (StreamError::Released, None));
}

#[test]
fn a_stream_takes_its_schema_once() {
    let releases = Releases::new(0);
    let mut stream = stream(&releases, numbers);
    assert!(stream.next_batch().unwrap().is_none());
    assert!(stream.next_batch().unwrap().is_none());
    assert!(Rc::ptr_eq(&stream.schema().unwrap(), &stream.schema().unwrap()));
    assert_eq!((stream.last_error(), releases.get()), (None, 0));
    drop(stream);
    assert_eq!(releases.get(), 2);
}
