//! Owners of schemas, arrays and streams: each releases its struct when it is dropped, unless that was released before.

use super::abi::{ArrowArray, ArrowArrayStream, ArrowSchema};
use super::check::{Rejected, check_raw};
use super::view::View;
use alloc::rc::Rc;
use alloc::vec::Vec;
use core::ffi::{CStr, c_int};
use core::mem::{ManuallyDrop, MaybeUninit};
use core::ptr;

/// A struct of the interface.
trait Raw {
    /// Releases the struct, unless it was released before.
    ///
    /// # Safety
    ///
    /// The struct follows the interface, and nobody else releases it.
    unsafe fn release(&mut self);
}

/// `Raw` of the structs of these names.
macro_rules! raw {
    ($($name:ident),*) => {
        $(impl Raw for $name {
            unsafe fn release(&mut self) {
                if let Some(release) = self.release {
                    // SAFETY: it was not released, since its `release` is there; the rest is the caller's.
                    unsafe { release(self) }
                }
            }
        })*
    };
}

raw!(ArrowSchema, ArrowArray, ArrowArrayStream);

/// The only owner of a struct, which follows the interface.
#[derive(Debug)]
struct Owned<T: Raw>(T);

impl<T: Raw> Owned<T> {
    /// Returns the struct without releasing it.
    fn into_raw(self) -> T {
        let kept = ManuallyDrop::new(self);
        // SAFETY: the owner is not dropped, so there is one owner of it still.
        unsafe { ptr::read(&kept.0) }
    }
}

impl<T: Raw> Drop for Owned<T> {
    fn drop(&mut self) {
        // SAFETY: this owner is the only one.
        unsafe { self.0.release() }
    }
}

/// The type of arrays.
#[derive(Debug)]
pub struct Schema(Owned<ArrowSchema>);

impl Schema {
    /// Takes over a raw struct.
    ///
    /// # Safety
    ///
    /// The struct follows the interface: each pointer that is not null points to what the specification requires.
    /// Nothing is written to this data while the owner lives. Nobody else releases the struct.
    #[must_use]
    pub unsafe fn from_raw(raw: ArrowSchema) -> Self {
        Schema(Owned(raw))
    }

    /// Returns the raw struct.
    #[must_use]
    pub fn as_raw(&self) -> &ArrowSchema {
        &self.0.0
    }

    /// Returns the raw struct without releasing it: then the caller must release it.
    #[must_use]
    pub fn into_raw(self) -> ArrowSchema {
        self.0.into_raw()
    }
}

/// An array, together with its schema.
#[derive(Debug)]
pub struct Array {
    raw: Owned<ArrowArray>,
    schema: Rc<Schema>,
    sizes: Option<Vec<usize>>,
}

impl Array {
    /// Takes over a raw struct. The array is checked against `schema`, so this must be the schema of the array.
    ///
    /// # Safety
    ///
    /// The struct follows the interface: each pointer that is not null points to what the specification requires. Each
    /// buffer has at least the bytes that the format of `schema`, length, offset and last offset require, and these
    /// bytes are initialised. The buffers that `docs/BINDINGS.md` lists as never read may be anything. Nothing is
    /// written to this data while the owner lives. Nobody else releases the struct.
    #[must_use]
    pub unsafe fn from_raw(raw: ArrowArray, schema: Rc<Schema>) -> Self {
        Array { raw: Owned(raw), schema, sizes: None }
    }

    /// Takes over a raw struct whose buffers have these sizes in bytes, in the order of [`check_raw`]. The check finds
    /// buffers that are too short for the format of `schema`, and reads nothing outside these sizes.
    ///
    /// # Safety
    ///
    /// As of [`Array::from_raw`], but of the buffers this is required: each that is not null has at least as many bytes
    /// as its entry of `sizes`, all initialised. If `sizes` has too few or too many entries, the check rejects the
    /// array.
    #[must_use]
    pub unsafe fn from_raw_sized(raw: ArrowArray, schema: Rc<Schema>, sizes: Vec<usize>) -> Self {
        Array { raw: Owned(raw), schema, sizes: Some(sizes) }
    }

    /// Returns the schema.
    #[must_use]
    pub fn schema(&self) -> &Rc<Schema> {
        &self.schema
    }

    /// Returns the raw struct.
    #[must_use]
    pub fn as_raw(&self) -> &ArrowArray {
        &self.raw.0
    }

    /// Returns the raw struct without releasing it: then the caller must release it.
    #[must_use]
    pub fn into_raw(self) -> ArrowArray {
        self.raw.into_raw()
    }

    /// Checks whether the array matches its schema, and returns a view of it.
    ///
    /// # Errors
    ///
    /// The first rule that the array breaks, and where.
    pub fn check(&self) -> Result<View<'_>, Rejected> {
        let (schema, array) = (self.schema.as_raw(), self.as_raw());
        // SAFETY: `from_raw` and `from_raw_sized` require of both structs, and of the sizes, what `check_raw` does.
        unsafe {
            check_raw(schema, array, self.sizes.as_deref())?;
            Ok(View::new(schema, array))
        }
    }
}

/// The error of a stream that returns no schema or array.
#[derive(Clone, Copy, Debug, PartialEq, Eq)]
pub enum StreamError {
    /// The stream was released, lacks a function, or returned a schema that was released.
    Released,
    /// An `errno`; [`Stream::last_error`] may have a text.
    Code(c_int),
}

impl core::fmt::Display for StreamError {
    fn fmt(&self, f: &mut core::fmt::Formatter<'_>) -> core::fmt::Result {
        match self {
            StreamError::Released => {
                f.write_str("the stream was released, lacks a function, or returned a released schema")
            }
            StreamError::Code(code) => write!(f, "the stream returned code {code}"),
        }
    }
}

impl core::error::Error for StreamError {}

/// Arrays of one schema, one after the other.
#[derive(Debug)]
pub struct Stream {
    raw: Owned<ArrowArrayStream>,
    /// The schema, once the stream has returned it.
    schema: Option<Rc<Schema>>,
    /// Whether the last function of the stream that was called returned an error.
    failed: bool,
    /// Whether the last array was returned.
    ended: bool,
}

impl Stream {
    /// Takes over a raw struct.
    ///
    /// # Safety
    ///
    /// The struct follows the interface. The schema that it returns follows the interface, as [`Schema::from_raw`]
    /// requires, and so does each array, as [`Array::from_raw`] requires with this schema. Nothing is written to their
    /// data while the stream or an array lives, except by the calls of the stream to the stream itself. Nobody else
    /// releases the struct.
    #[must_use]
    pub unsafe fn from_raw(raw: ArrowArrayStream) -> Self {
        Stream { raw: Owned(raw), schema: None, failed: false, ended: false }
    }

    /// Returns the raw struct.
    #[must_use]
    pub fn as_raw(&self) -> &ArrowArrayStream {
        &self.raw.0
    }

    /// Returns the raw struct without releasing it: then the caller must release it.
    #[must_use]
    pub fn into_raw(self) -> ArrowArrayStream {
        self.raw.into_raw()
    }

    /// Returns the schema of its arrays. The first call takes it from the stream, later calls return it again.
    ///
    /// # Errors
    ///
    /// [`StreamError::Released`], or the code that the stream returns.
    pub fn schema(&mut self) -> Result<Rc<Schema>, StreamError> {
        if let Some(schema) = &self.schema {
            return Ok(Rc::clone(schema));
        }
        let get = self.call(self.raw.0.get_schema)?;
        let mut out = MaybeUninit::<ArrowSchema>::zeroed();
        // SAFETY: the stream is not released, and the call writes a schema where it returns 0.
        let code = unsafe { get(&mut self.raw.0, out.as_mut_ptr()) };
        self.succeeds(code)?;
        // SAFETY: of a schema that was released, only `release` may be initialised, which is read alone.
        if unsafe { (*out.as_ptr()).release.is_none() } {
            return Err(StreamError::Released);
        }
        // SAFETY: the schema follows the interface, as `from_raw` requires.
        let schema = Rc::new(unsafe { Schema::from_raw(out.assume_init()) });
        Ok(Rc::clone(self.schema.insert(schema)))
    }

    /// Returns the next array, or `None` after the last one, also if it is called again. If the schema was not taken
    /// yet, takes it first. It may be called again after an error: then the stream decides what comes.
    ///
    /// # Errors
    ///
    /// [`StreamError::Released`], or the code that the stream returns.
    pub fn next_batch(&mut self) -> Result<Option<Array>, StreamError> {
        if self.ended {
            return Ok(None);
        }
        let schema = self.schema()?;
        let get = self.call(self.raw.0.get_next)?;
        let mut out = MaybeUninit::<ArrowArray>::zeroed();
        // SAFETY: the stream is not released, and the call writes an array where it returns 0.
        let code = unsafe { get(&mut self.raw.0, out.as_mut_ptr()) };
        self.succeeds(code)?;
        // SAFETY: after the last array the stream wrote one that is released. Of that one only `release` may be
        // initialised, which is read alone.
        if unsafe { (*out.as_ptr()).release.is_none() } {
            self.ended = true;
            return Ok(None);
        }
        // SAFETY: the array follows the interface, and the schema is its own, as `from_raw` requires.
        Ok(Some(unsafe { Array::from_raw(out.assume_init(), schema) }))
    }

    /// Returns the text of the last error, if the last `get_schema` or `get_next` of the stream returned an error and
    /// the stream has a text.
    pub fn last_error(&mut self) -> Option<&CStr> {
        let get = self.raw.0.get_last_error.filter(|_| self.failed && self.raw.0.release.is_some())?;
        // SAFETY: the stream is not released, and its last function returned an error; the text lives until the next
        // call, which takes the stream again.
        unsafe {
            let text = get(&mut self.raw.0);
            (!text.is_null()).then(|| CStr::from_ptr(text))
        }
    }

    /// Returns a function of the stream, if the stream has it and is not released.
    fn call<F>(&mut self, function: Option<F>) -> Result<F, StreamError> {
        self.failed = false;
        function.filter(|_| self.raw.0.release.is_some()).ok_or(StreamError::Released)
    }

    /// Keeps whether a call of the stream returned an error.
    fn succeeds(&mut self, code: c_int) -> Result<(), StreamError> {
        self.failed = code != 0;
        if self.failed { Err(StreamError::Code(code)) } else { Ok(()) }
    }
}
