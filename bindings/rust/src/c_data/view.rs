//! Views of arrays that were checked.

use super::abi::{ArrowArray, ArrowSchema};
use super::layout::{Kind, Layout};
use crate::Bits;
use crate::bytes_for;
use core::ffi::CStr;
use core::slice;

/// An array that was checked, and its schema.
#[derive(Clone, Copy, Debug)]
pub struct View<'a> {
    schema: &'a ArrowSchema,
    array: &'a ArrowArray,
}

/// Offsets of either width. There is one offset more than there are slots.
#[derive(Clone, Copy, Debug, PartialEq, Eq)]
pub enum Offsets<'a> {
    /// Of 32 bits.
    Narrow(&'a [i32]),
    /// Of 64 bits.
    Wide(&'a [i64]),
}

impl<'a> View<'a> {
    /// # Safety
    ///
    /// The array follows the interface, and was checked to be one of the schema.
    pub(super) unsafe fn new(schema: &'a ArrowSchema, array: &'a ArrowArray) -> Self {
        View { schema, array }
    }

    /// The number of items.
    #[must_use]
    pub fn len(&self) -> usize {
        self.array.length as usize
    }

    /// Whether the array has no items.
    #[must_use]
    pub fn is_empty(&self) -> bool {
        self.len() == 0
    }

    /// The index of the first item in the buffers.
    #[must_use]
    pub fn offset(&self) -> usize {
        self.array.offset as usize
    }

    /// The format.
    #[must_use]
    pub fn format(&self) -> &'a CStr {
        // SAFETY: a checked schema has one, which lives as long as the schema.
        unsafe { CStr::from_ptr(self.schema.format) }
    }

    /// The layout by the format.
    #[must_use]
    pub fn layout(&self) -> Layout<'a> {
        let known = Layout::read(self.format().to_bytes());
        known.expect("a view is made of an array whose format the check knew")
    }

    /// The name of the field, if it has one.
    #[must_use]
    pub fn name(&self) -> Option<&'a CStr> {
        // SAFETY: a name is null or a text that lives as long as the schema.
        unsafe { (!self.schema.name.is_null()).then(|| CStr::from_ptr(self.schema.name)) }
    }

    /// Which items are not null, from [`Bits::offset`] on; `None` where there is no validity bitmap. Then no item is
    /// null, except in a null array, where each is.
    ///
    /// A child's view does not add the offset of its parent: row `i` of a struct is item `offset() + i` of each child.
    /// The validity of a struct is not applied to its children. An index of a null entry of a dictionary counts as not
    /// null.
    #[must_use]
    pub fn validity(&self) -> Option<Bits<'a>> {
        if self.layout().has_validity() { self.bits(0) } else { None }
    }

    /// The values of a boolean array, `None` for other arrays. An empty array has no bytes, and its buffer is not read.
    #[must_use]
    pub fn booleans(&self) -> Option<Bits<'a>> {
        if self.layout().kind != Kind::Boolean {
            return None;
        }
        if self.is_empty() { Some(Bits { bytes: &[], offset: 0 }) } else { self.bits(1) }
    }

    /// The offsets of texts, byte strings, lists and maps, `None` for other arrays. There is one offset more than there
    /// are items. An empty array has the single offset 0, and its buffer is not read.
    #[must_use]
    pub fn offsets(&self) -> Option<Offsets<'a>> {
        let layout = self.layout();
        if !matches!(layout.kind, Kind::Bytes | Kind::Text | Kind::List | Kind::Map) {
            return None;
        }
        if self.is_empty() {
            return Some(if layout.size == 4 { Offsets::Narrow(&[0]) } else { Offsets::Wide(&[0]) });
        }
        let count = self.len() + 1;
        // SAFETY: the check found the pointer aligned, and these offsets from the array's own on.
        self.buffer(1).map(|start| unsafe {
            if layout.size == 4 {
                Offsets::Narrow(slice::from_raw_parts(start.cast::<i32>().add(self.offset()), count))
            } else {
                Offsets::Wide(slice::from_raw_parts(start.cast::<i64>().add(self.offset()), count))
            }
        })
    }

    /// For texts and byte strings: buffer 2, from its first byte to the last offset. For values of a fixed width: the
    /// bytes of the items, from the first item on. `None` for other arrays. Plain values need not be aligned for their
    /// type: the check does not test it. (It does where they are the indices of a dictionary.)
    #[must_use]
    pub fn bytes(&self) -> Option<&'a [u8]> {
        let layout = self.layout();
        let (index, from, count) = match layout.kind {
            Kind::Fixed => (1, layout.size * self.offset(), layout.size * self.len()),
            Kind::Bytes | Kind::Text => (2, 0, self.last_offset()),
            _ => return None,
        };
        if count == 0 {
            return Some(&[]);
        }
        // SAFETY: the check found these bytes there.
        self.buffer(index).map(|start| unsafe { slice::from_raw_parts(start.add(from), count) })
    }

    /// The last offset, 0 where there is no slot.
    fn last_offset(&self) -> usize {
        match self.offsets() {
            Some(Offsets::Narrow(offsets)) => offsets[self.len()] as usize,
            Some(Offsets::Wide(offsets)) => offsets[self.len()] as usize,
            None => 0,
        }
    }

    /// The bytes of slot `slot` of texts or byte strings, also of a null. `None` for other arrays, and where there is
    /// no such slot.
    #[must_use]
    pub fn slot(&self, slot: usize) -> Option<&'a [u8]> {
        let (start, end) = match self.offsets()? {
            Offsets::Narrow(offsets) => (*offsets.get(slot)? as usize, *offsets.get(slot + 1)? as usize),
            Offsets::Wide(offsets) => (*offsets.get(slot)? as usize, *offsets.get(slot + 1)? as usize),
        };
        self.bytes()?.get(start..end)
    }

    /// Child `index`, `None` where there is no such child.
    #[must_use]
    pub fn child(&self, index: usize) -> Option<View<'a>> {
        if index >= self.array.n_children as usize {
            return None;
        }
        // SAFETY: the check went through each child, whose pointers are not null and live as long as the array.
        unsafe { Some(View { schema: &**self.schema.children.add(index), array: &**self.array.children.add(index) }) }
    }

    /// The dictionary that the values are indices of, if there is one.
    #[must_use]
    pub fn dictionary(&self) -> Option<View<'a>> {
        // SAFETY: the check found both null or neither, and went through it.
        unsafe { Some(View { schema: self.schema.dictionary.as_ref()?, array: self.array.dictionary.as_ref()? }) }
    }

    /// Buffer `index`, `None` where it is null.
    fn buffer(&self, index: usize) -> Option<*const u8> {
        // SAFETY: the check found the buffers that the format has.
        let start = unsafe { *self.array.buffers.add(index) };
        (!start.is_null()).then_some(start.cast())
    }

    /// The bits of buffer `index`.
    fn bits(&self, index: usize) -> Option<Bits<'a>> {
        let count = bytes_for(self.offset() + self.len());
        // SAFETY: the check found these bytes there.
        self.buffer(index)
            .map(|start| Bits { bytes: unsafe { slice::from_raw_parts(start, count) }, offset: self.offset() })
    }
}
