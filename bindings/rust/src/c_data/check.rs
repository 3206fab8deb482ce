//! Checks whether an array matches its schema. Traverses the tree as `arrow2_c_data.h` does: each test of bits,
//! offsets, texts and indices, except of slots of unions, is a call of the library.

use super::abi::{ArrowArray, ArrowSchema};
use super::layout::{Kind, Layout};
use crate::error::{Error, ErrorAt};
use crate::{Bits, Index, Offset, bytes_for, check_bits, check_validity, check_values};
use alloc::vec::Vec;
use core::ffi::CStr;
use core::fmt;
use core::slice;

/// How deep a tree may be.
pub const MAX_DEPTH: usize = 64;

/// The greatest number of arrays of a tree, and of children of an array.
pub const MAX_ARRAYS: usize = 1_048_576;

/// More bytes than any buffer has: the size of a buffer whose size is not known.
const MAX_BYTES: usize = 1 << 56;

/// The rule that an array breaks.
#[derive(Clone, Copy, Debug, PartialEq, Eq)]
pub enum Broken {
    /// A rule on the sizes of buffers, or on the bits, offsets, texts, indices or number of nulls of the array.
    Part(Error),
    /// A pointer that the array needs is null.
    Null,
    /// The schema or the array was released.
    Released,
    /// A length, an offset, or a number of buffers or children of the array is negative, or length + offset is above
    /// 2^63 - 1.
    Negative,
    /// The check does not know the format, and rejects the array.
    Format,
    /// The number of buffers is not the one that the format requires.
    Buffers,
    /// The number of children of the array or of the schema is not the one that the format requires, the two differ, or
    /// the schema of the child of a map is not that of a struct of two children.
    Children,
    /// A child has fewer items than its parent needs.
    ShortChild,
    /// Only one of schema and array has a dictionary, or the format of the indices is not that of an integer.
    Dictionary,
    /// A slot of a union has a type that the format does not name.
    Type,
    /// A slot of a dense union points outside its child, or before the item of an earlier slot of the same type.
    UnionOffset,
    /// The tree is deeper than [`MAX_DEPTH`], or has more arrays than [`MAX_ARRAYS`].
    TooLarge,
    /// A buffer of offsets or indices that the check reads is not aligned.
    Unaligned,
    /// There are more or fewer sizes than buffers in the tree.
    Sizes,
}

impl Broken {
    /// The code of `arrow2_proved.h` and `arrow2_c_data.h`.
    #[must_use]
    pub fn code(self) -> u32 {
        match self {
            Broken::Part(error) => match error {
                Error::Range => 1,
                Error::Length => 2,
                Error::Overflow => 3,
                Error::Memory => 4,
                Error::NoOffset => 5,
                Error::NegativeOffset => 6,
                Error::FallingOffsets => 7,
                Error::Nulls => 8,
                Error::PastOffset => 9,
                Error::NotUtf8 => 10,
                Error::Index => 11,
            },
            Broken::Null => 32,
            Broken::Released => 33,
            Broken::Negative => 34,
            Broken::Format => 35,
            Broken::Buffers => 36,
            Broken::Children => 37,
            Broken::ShortChild => 38,
            Broken::Dictionary => 39,
            Broken::Type => 40,
            Broken::UnionOffset => 41,
            Broken::TooLarge => 42,
            Broken::Unaligned => 43,
            Broken::Sizes => 44,
        }
    }
}

impl fmt::Display for Broken {
    fn fmt(&self, f: &mut fmt::Formatter<'_>) -> fmt::Result {
        f.write_str(match self {
            Broken::Part(error) => return error.fmt(f),
            Broken::Null => "a pointer is null",
            Broken::Released => "it was released",
            Broken::Negative => "a number is negative, or length + offset is too large",
            Broken::Format => "the format is not known",
            Broken::Buffers => "the number of buffers is not what the format requires",
            Broken::Children => "the children are not what the format requires",
            Broken::ShortChild => "a child is too short",
            Broken::Dictionary => "the dictionary does not fit",
            Broken::Type => "a union has a type that its format does not name",
            Broken::UnionOffset => "an offset of a union is outside its child, or falls",
            Broken::TooLarge => "the tree is too large",
            Broken::Unaligned => "numbers are not aligned",
            Broken::Sizes => "the number of sizes is not the number of buffers",
        })
    }
}

/// The steps from the root to an array of the tree; the path of the root is empty. A step to a child is `list.0`,
/// `fixed_list.0`, `map.0`, `struct.K` or `union.K`, by the format of the parent; `K` counts children from 0 on. The
/// step to a dictionary is `dictionary`. A `/` stands between two steps, as in `struct.3/list.0`.
#[derive(Clone, Debug, Default, PartialEq, Eq)]
pub struct Path(Vec<(Kind, Option<usize>)>);

impl fmt::Display for Path {
    fn fmt(&self, f: &mut fmt::Formatter<'_>) -> fmt::Result {
        for (step, (kind, child)) in self.0.iter().enumerate() {
            let between = if step == 0 { "" } else { "/" };
            match child {
                Some(child) => write!(f, "{between}{}.{child}", kind.name())?,
                None => write!(f, "{between}dictionary")?,
            }
        }
        Ok(())
    }
}

/// The rule that an array breaks, and where.
#[derive(Clone, Debug, PartialEq, Eq)]
pub struct Rejected {
    /// The rule.
    pub broken: Broken,
    /// Where the array is in the tree.
    pub path: Path,
    /// The slot of that array, if the rule is about one, counted from 0 at the array's offset. An offset of a text,
    /// byte string, list or map that breaks a rule belongs to the slot that ends at it; the first offset belongs to
    /// slot 0. An offset of a dense union belongs to its own slot.
    pub slot: Option<usize>,
}

impl fmt::Display for Rejected {
    fn fmt(&self, f: &mut fmt::Formatter<'_>) -> fmt::Result {
        write!(f, "\"{}\": {}", self.path, self.broken)?;
        self.slot.map_or(Ok(()), |slot| write!(f, " at slot {slot}"))
    }
}

impl core::error::Error for Rejected {}

/// A rule that is broken, and the slot.
struct Fault(Broken, Option<usize>);

impl From<Broken> for Fault {
    fn from(broken: Broken) -> Self {
        Fault(broken, None)
    }
}

impl From<Error> for Fault {
    fn from(error: Error) -> Self {
        Fault(Broken::Part(error), None)
    }
}

/// An error in offsets, by the slot that ends there.
fn of_offset(error: ErrorAt) -> Fault {
    Fault(Broken::Part(error.error), Some(error.at.saturating_sub(1)))
}

/// An error in a slot.
fn of_slot(error: ErrorAt) -> Fault {
    Fault(Broken::Part(error.error), Some(error.at))
}

/// Checks whether an array matches a schema. `sizes` has the number of bytes of each buffer, depth first: those of an
/// array's own buffers, then those of its children in order, then those of its dictionary. A buffer that is null takes
/// a size too. `Some(&[])` means that there are no buffers: a tree that has one is rejected, with [`Broken::Sizes`]
/// unless an earlier rule is broken.
///
/// With `None` the buffers are read to the length that format, length, offset and last offset require. Each is taken to
/// have 2^56 bytes: what would need more is rejected, with [`Error::PastOffset`] for an offset into binary or utf8
/// bytes, else with [`Error::Range`].
///
/// It is stricter than Arrow: the bytes of a null slot of a text must be UTF-8 too, and offsets and indices that are
/// read must be aligned. `docs/BINDINGS.md` has the order of the rules, and what is not tested.
///
/// # Errors
///
/// The first rule that is broken, and where.
///
/// # Safety
///
/// Each pointer is null, or points to what the interface specifies; of a struct that was released, this is required
/// only of `release`, which is null. With `Some`, each buffer that is not null has at least as many bytes as its entry
/// of `sizes`; with `None`, at least those that format, length, offset and last offset require. These bytes are
/// initialised. The buffers that `docs/BINDINGS.md` lists as never read may be anything. Nothing is written to this
/// data during the call.
pub unsafe fn check_raw(
    schema: *const ArrowSchema,
    array: *const ArrowArray,
    sizes: Option<&[usize]>,
) -> Result<(), Rejected> {
    let mut tree = Tree { sizes, next_size: 0, arrays: 0, path: Path::default() };
    let node = Node { schema, array };
    // SAFETY: the caller's.
    unsafe {
        node.check_head().map_err(|broken| tree.reject(broken.into()))?;
        tree.check_tree(node)?;
    }
    match sizes {
        Some(sizes) if sizes.len() != tree.next_size => Err(tree.reject(Broken::Sizes.into())),
        _ => Ok(()),
    }
}

/// An array of the tree and its schema. SAFETY, of each `unsafe fn` below: as of [`check_raw`]. Where a comment
/// requires a checked head, the node has passed `check_head`.
#[derive(Clone, Copy)]
struct Node {
    schema: *const ArrowSchema,
    array: *const ArrowArray,
}

impl Node {
    /// Whether its pointers and numbers can be read at all.
    unsafe fn check_head(self) -> Result<(), Broken> {
        if self.schema.is_null() || self.array.is_null() {
            return Err(Broken::Null);
        }
        // SAFETY: the caller's. Of a struct that was released, only `release` may be initialised: so there is no
        // reference to the struct before this test.
        if unsafe { (*self.schema).release.is_none() || (*self.array).release.is_none() } {
            return Err(Broken::Released);
        }
        // SAFETY: the caller's.
        let (schema, array) = unsafe { (&*self.schema, &*self.array) };
        if schema.format.is_null() {
            return Err(Broken::Null);
        }
        let numbers = [array.length, array.offset, array.n_children, array.n_buffers];
        if numbers.iter().any(|it| *it < 0) || array.offset.checked_add(array.length).is_none() {
            return Err(Broken::Negative);
        }
        Ok(())
    }

    /// Child `index` of a node whose counts were checked.
    unsafe fn child(self, index: usize) -> Node {
        // SAFETY: both have the same number of children.
        unsafe { Node { schema: *(*self.schema).children.add(index), array: *(*self.array).children.add(index) } }
    }

    /// The dictionary, if there is one.
    unsafe fn dictionary(self) -> Option<Node> {
        // SAFETY: both are null, or neither is.
        let (schema, array) = unsafe { ((*self.schema).dictionary, (*self.array).dictionary) };
        (!array.is_null()).then_some(Node { schema: schema.cast_const(), array: array.cast_const() })
    }
}

/// A buffer, its size, and the array's offset and length.
#[derive(Clone, Copy)]
struct Buffer {
    start: *const u8,
    size: usize,
    offset: usize,
    length: usize,
}

impl Buffer {
    /// Checks that the pointer to `count` items of `width` bytes is not null, and is aligned. If nothing is read, any
    /// pointer will do.
    fn check_pointer(&self, count: usize, width: usize) -> Result<(), Broken> {
        if count == 0 || width == 0 {
            return Ok(());
        }
        if self.start.is_null() {
            return Err(Broken::Null);
        }
        if self.start.addr() % width != 0 {
            return Err(Broken::Unaligned);
        }
        Ok(())
    }

    /// `count` items from item `from` on, whose pointer was checked.
    unsafe fn items<'a, T>(&self, from: usize, count: usize) -> &'a [T] {
        if count == 0 {
            return &[];
        }
        // SAFETY: the pointer was checked, and these items are inside the buffer.
        unsafe { slice::from_raw_parts(self.start.cast::<T>().add(from), count) }
    }

    /// Whether the array's bits are inside, or its values of `width` bytes.
    fn check_values(&self, bits: bool, width: usize) -> Result<(), Fault> {
        if bits {
            check_bits(self.size, self.offset, self.length)?;
            self.check_pointer(self.length, 1)?;
        } else {
            check_values(self.size, width, self.offset, self.length)?;
            self.check_pointer(self.length, width.min(1))?;
        }
        Ok(())
    }

    /// The bits, if the pointer is not null.
    unsafe fn bits<'a>(&self) -> Option<Bits<'a>> {
        let count = bytes_for(self.offset + self.length);
        // SAFETY: the bits were found inside.
        (!self.start.is_null()).then(|| Bits { bytes: unsafe { self.items(0, count) }, offset: self.offset })
    }

    /// Checks the offsets of the array, and returns them: one more than there are slots. None may be above `items`.
    /// Where there is no slot none is read.
    unsafe fn offsets<'a, O: Offset>(&self, items: usize) -> Result<&'a [O], Fault> {
        if self.length == 0 {
            return Ok(&[]);
        }
        let width = size_of::<O>();
        check_values(self.size, width, self.offset, self.length + 1)?;
        self.check_pointer(self.length + 1, width)?;
        // SAFETY: they are inside.
        let offsets: &[O] = unsafe { self.items(self.offset, self.length + 1) };
        O::check_inside(offsets, items).map_err(of_offset)?;
        Ok(offsets)
    }

    /// Byte strings or texts by their offsets in this buffer.
    unsafe fn check_slots<O: Offset + Into<i64>>(&self, values: Buffer, texts: bool) -> Result<(), Fault> {
        // SAFETY: the caller's.
        let offsets: &[O] = unsafe { self.offsets(values.size)? };
        let last = offsets.last().map_or(0, |last| (*last).into() as usize);
        values.check_pointer(last, 1)?;
        if !texts || last == 0 {
            return Ok(());
        }
        // SAFETY: the last offset is inside.
        O::check_texts(offsets, unsafe { values.items(0, last) }).map_err(of_slot)
    }

    /// Indices below `items`, or null.
    unsafe fn check_indices<I: Index>(&self, validity: Option<Bits<'_>>, items: usize) -> Result<(), Fault> {
        self.check_pointer(self.length, size_of::<I>())?;
        // SAFETY: they are inside.
        I::check_indices(unsafe { self.items(self.offset, self.length) }, validity, items).map_err(of_slot)
    }
}

/// A tree, and the array of it that is checked.
struct Tree<'s> {
    sizes: Option<&'s [usize]>,
    next_size: usize,
    arrays: usize,
    path: Path,
}

impl Tree<'_> {
    fn reject(&self, fault: Fault) -> Rejected {
        Rejected { broken: fault.0, path: self.path.clone(), slot: fault.1 }
    }

    /// Goes to child `index` of an array by its format, or to its dictionary.
    fn enter(&mut self, kind: Kind, index: Option<usize>) {
        self.path.0.push((kind, index));
    }

    /// Buffer `index` of a node whose counts were checked.
    unsafe fn buffer(&self, node: Node, index: usize) -> Buffer {
        // SAFETY: the caller's.
        unsafe {
            let array = &*node.array;
            Buffer {
                start: (*array.buffers.add(index)).cast(),
                size: self.sizes.map_or(MAX_BYTES, |sizes| sizes[self.next_size + index]),
                offset: array.offset as usize,
                length: array.length as usize,
            }
        }
    }

    /// Whether a node whose head was checked is right, and all below it.
    unsafe fn check_tree(&mut self, node: Node) -> Result<(), Rejected> {
        if self.path.0.len() >= MAX_DEPTH || self.arrays >= MAX_ARRAYS {
            return Err(self.reject(Broken::TooLarge.into()));
        }
        self.arrays += 1;
        // SAFETY: the caller's; the head was checked.
        unsafe {
            let format = CStr::from_ptr((*node.schema).format).to_bytes();
            let layout = Layout::read(format).ok_or_else(|| self.reject(Broken::Format.into()))?;
            self.check_own(node, &layout).map_err(|fault| self.reject(fault))?;
            self.next_size += if self.sizes.is_some() { layout.buffers } else { 0 };
            for index in 0..(*node.array).n_children as usize {
                self.enter(layout.kind, Some(index));
                self.check_tree(node.child(index))?;
                self.path.0.pop();
            }
            if let Some(dictionary) = node.dictionary() {
                self.enter(layout.kind, None);
                self.check_tree(dictionary)?;
                self.path.0.pop();
            }
        }
        Ok(())
    }

    /// Checks an array but for its children and its dictionary. On an error, the path is that of the array that is
    /// wrong.
    unsafe fn check_own(&mut self, node: Node, layout: &Layout<'_>) -> Result<(), Fault> {
        // SAFETY: the caller's.
        unsafe {
            self.check_counts(node, layout)?;
            self.check_heads(node, layout)?;
            let null_count = (*node.array).null_count;
            if layout.has_validity() {
                self.check_nulls(node)?;
            }
            if layout.is_union() && !matches!(null_count, 0 | -1) {
                return Err(Error::Nulls.into());
            }
            self.check_content(node, layout)
        }
    }

    /// Checks that there are the buffers, sizes and children that the format has, and that both or neither of schema
    /// and array have a dictionary.
    unsafe fn check_counts(&self, node: Node, layout: &Layout<'_>) -> Result<(), Broken> {
        // SAFETY: the head was checked.
        let (schema, array) = unsafe { (&*node.schema, &*node.array) };
        let children = layout.children.map_or(schema.n_children, |count| count as i64);
        if array.n_buffers != layout.buffers as i64 {
            return Err(Broken::Buffers);
        }
        if array.n_children != children || schema.n_children != children {
            return Err(Broken::Children);
        }
        if children > MAX_ARRAYS as i64 {
            return Err(Broken::TooLarge);
        }
        let no_buffers = array.n_buffers > 0 && array.buffers.is_null();
        if no_buffers || (children > 0 && (array.children.is_null() || schema.children.is_null())) {
            return Err(Broken::Null);
        }
        let has_dictionary = !array.dictionary.is_null();
        if has_dictionary == schema.dictionary.is_null() || (has_dictionary && layout.index.is_none()) {
            return Err(Broken::Dictionary);
        }
        if self.sizes.is_some_and(|sizes| sizes.len() - self.next_size < layout.buffers) {
            return Err(Broken::Sizes);
        }
        Ok(())
    }

    /// Checks that each child, and the dictionary, can be read at all. On an error, the path is that of the one that
    /// cannot.
    unsafe fn check_heads(&mut self, node: Node, layout: &Layout<'_>) -> Result<(), Broken> {
        // SAFETY: the counts were checked.
        unsafe {
            for index in 0..(*node.array).n_children as usize {
                node.child(index).check_head().inspect_err(|_| self.enter(layout.kind, Some(index)))?;
            }
            if let Some(dictionary) = node.dictionary() {
                dictionary.check_head().inspect_err(|_| self.enter(layout.kind, None))?;
            }
        }
        Ok(())
    }

    /// Whether the validity has a bit for each item, and the declared number of nulls.
    unsafe fn check_nulls(&self, node: Node) -> Result<(), Fault> {
        // SAFETY: the caller's.
        unsafe {
            let null_count = (*node.array).null_count;
            let buffer = self.buffer(node, 0);
            if buffer.start.is_null() {
                return if matches!(null_count, 0 | -1) { Ok(()) } else { Err(Error::Nulls.into()) };
            }
            check_bits(buffer.size, buffer.offset, buffer.length)?;
            let bits = Bits { bytes: buffer.items(0, bytes_for(buffer.offset + buffer.length)), offset: buffer.offset };
            Ok(check_validity(bits, buffer.length, null_count)?)
        }
    }

    /// Whether the array's own buffers are right.
    unsafe fn check_content(&mut self, node: Node, layout: &Layout<'_>) -> Result<(), Fault> {
        // SAFETY: the caller's; the counts and the heads of children were checked.
        unsafe {
            let array = &*node.array;
            match layout.kind {
                Kind::Null if array.null_count == -1 || array.null_count == array.length => Ok(()),
                Kind::Null => Err(Error::Nulls.into()),
                Kind::Map if !is_entries(node.child(0)) => Err(Broken::Children.into()),
                Kind::Map | Kind::List => {
                    let items = (*node.child(0).array).length as usize;
                    let offsets = self.buffer(node, 1);
                    if layout.size == 4 {
                        offsets.offsets::<i32>(items).map(|_| ())
                    } else {
                        offsets.offsets::<i64>(items).map(|_| ())
                    }
                }
                Kind::Struct => self.check_lengths(node, layout.kind, 1),
                Kind::FixedList => self.check_lengths(node, layout.kind, layout.size),
                Kind::SparseUnion => {
                    self.check_union(node, layout)?;
                    self.check_lengths(node, layout.kind, 1)
                }
                Kind::DenseUnion => self.check_union(node, layout),
                Kind::Boolean | Kind::Fixed | Kind::Bytes | Kind::Text => self.check_flat(node, layout),
            }
        }
    }

    /// Whether the values of an array of no children are there and right.
    unsafe fn check_flat(&self, node: Node, layout: &Layout<'_>) -> Result<(), Fault> {
        // SAFETY: the caller's.
        unsafe {
            let second = self.buffer(node, 1);
            let texts = layout.kind == Kind::Text;
            if texts || layout.kind == Kind::Bytes {
                let values = self.buffer(node, 2);
                return if layout.size == 4 {
                    second.check_slots::<i32>(values, texts)
                } else {
                    second.check_slots::<i64>(values, texts)
                };
            }
            second.check_values(layout.kind == Kind::Boolean, layout.size)?;
            let Some(dictionary) = node.dictionary() else { return Ok(()) };
            let items = (*dictionary.array).length as usize;
            let validity = self.buffer(node, 0).bits();
            match layout.index {
                Some(b'c') => second.check_indices::<i8>(validity, items),
                Some(b'C') => second.check_indices::<u8>(validity, items),
                Some(b's') => second.check_indices::<i16>(validity, items),
                Some(b'S') => second.check_indices::<u16>(validity, items),
                Some(b'i') => second.check_indices::<i32>(validity, items),
                Some(b'I') => second.check_indices::<u32>(validity, items),
                Some(b'l') => second.check_indices::<i64>(validity, items),
                _ => second.check_indices::<u64>(validity, items),
            }
        }
    }

    /// Checks that each child has `of_a_slot` items for each slot, including those before the offset. On an error, the
    /// path is that of the child that has not.
    unsafe fn check_lengths(&mut self, node: Node, kind: Kind, of_a_slot: usize) -> Result<(), Fault> {
        // SAFETY: the caller's.
        unsafe {
            let array = &*node.array;
            for index in 0..array.n_children as usize {
                let items = (*node.child(index).array).length as usize;
                if check_values(items, of_a_slot, array.offset as usize, array.length as usize).is_err() {
                    self.enter(kind, Some(index));
                    return Err(Broken::ShortChild.into());
                }
            }
        }
        Ok(())
    }

    /// Whether each slot of a union has a type of the format and, if it is dense, points into its child, at no item
    /// before that of an earlier slot of the same type.
    unsafe fn check_union(&self, node: Node, layout: &Layout<'_>) -> Result<(), Fault> {
        // SAFETY: the caller's.
        unsafe {
            let types = self.buffer(node, 0);
            types.check_values(false, 1)?;
            let types: &[i8] = types.items(types.offset, types.length);
            let child_of = layout.child_of_types();
            let of = |of_type: i8| usize::try_from(of_type).ok().and_then(|it| child_of[it]);
            let dense = layout.kind == Kind::DenseUnion;
            let offsets: &[i32] = if dense { self.union_offsets(node)? } else { &[] };
            let mut least = [0; 128];
            for (slot, of_type) in types.iter().enumerate() {
                let child = of(*of_type).ok_or(Fault(Broken::Type, Some(slot)))?;
                if let Some(offset) = offsets.get(slot) {
                    let least = &mut least[*of_type as usize];
                    if offset < least || i64::from(*offset) >= (*node.child(child).array).length {
                        return Err(Fault(Broken::UnionOffset, Some(slot)));
                    }
                    *least = *offset;
                }
            }
        }
        Ok(())
    }

    unsafe fn union_offsets<'a>(&self, node: Node) -> Result<&'a [i32], Fault> {
        // SAFETY: the caller's.
        unsafe {
            let offsets = self.buffer(node, 1);
            offsets.check_values(false, 4)?;
            offsets.check_pointer(offsets.length, 4)?;
            Ok(offsets.items(offsets.offset, offsets.length))
        }
    }
}

/// Whether the schema of the child of a map is that of a struct of two children.
unsafe fn is_entries(entries: Node) -> bool {
    // SAFETY: its head was checked.
    unsafe { CStr::from_ptr((*entries.schema).format) == c"+s" && (*entries.schema).n_children == 2 }
}
