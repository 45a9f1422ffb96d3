//! The way in. Not part of bitvec.
//!
//! The `sp_` functions are private to bitvec; [`Row`] makes them callable.
//! Nothing here computes an answer: each method is one call of the verbatim
//! code. Spans are checked once, in [`view`] and [`view_mut`].

use core::{mem::size_of, ops::Range, ptr::NonNull};

use wyz::comu::{Address, Const, Mut};

use crate::{
	field::BitField,
	index::{BitEnd, BitIdx},
	mem::{bits_of, BitRegister},
	order::{BitOrder, Lsb0, Msb0},
	ptr::BitPtr,
	slice::BitSlice,
	store::BitStore,
};

/// Words that can be lent.
pub trait Word: BitRegister + BitStore<Mem = Self> {}

impl Word for u8 {}
impl Word for u16 {}
impl Word for u32 {}
impl Word for u64 {}

/// The head of a span. Stops unless the span lies in the words.
fn check<T: Word>(words: usize, word: usize, head: u8, length: usize) -> BitIdx<T> {
	let width = bits_of::<T>() as u128;
	assert!(
		width * word as u128 + head as u128 + length as u128 <= width * words as u128,
		"span not in bounds",
	);
	BitIdx::new(head).expect("head too large")
}

/// The span of `length` bits at index `head` of word `word`, to read.
pub fn view<T, O>(words: &[T], word: usize, head: u8, length: usize) -> &BitSlice<T, O>
where
	T: Word,
	O: BitOrder,
{
	let head = check::<T>(words.len(), word, head, length);
	unsafe {
		let first = NonNull::new_unchecked(words.as_ptr().add(word) as *mut T);
		BitPtr::<Const, T, O>::new_unchecked(Address::new(first), head)
			.span_unchecked(length)
			.into_bitslice_ref()
	}
}

/// The span of `length` bits at index `head` of word `word`, to write.
pub fn view_mut<T, O>(
	words: &mut [T],
	word: usize,
	head: u8,
	length: usize,
) -> &mut BitSlice<T, O>
where
	T: Word,
	O: BitOrder,
{
	let head = check::<T>(words.len(), word, head, length);
	unsafe {
		let first = NonNull::new_unchecked(words.as_mut_ptr().add(word));
		BitPtr::<Mut, T, O>::new_unchecked(Address::new(first), head)
			.span_unchecked(length)
			.into_bitslice_mut()
	}
}

/// The boolean operation with number `N` on words: for bits a and b the result
/// is bit 2a + b of `N`. And is 8, or 14, xor 6.
pub fn word_op<const N: u8>(a: usize, b: usize) -> usize {
	let pick = |bit: u8, value: usize| if N >> bit & 1 == 1 { value } else { 0 };
	pick(3, a & b) | pick(2, a & !b) | pick(1, !a & b) | pick(0, !a & !b)
}

/// The same on bits.
pub fn bool_op<const N: u8>(a: bool, b: bool) -> bool {
	N >> (2 * a as u8 + b as u8) & 1 == 1
}

/// The calls of lsb0.rs and msb0.rs, the bit pointer's read and write, and the
/// split.
pub trait Row: BitField {
	/// The bit at `index`, which has to be below the length.
	fn read(&self, index: usize) -> bool;
	/// Writes the bit at `index`, which has to be below the length.
	fn write(&mut self, index: usize, value: bool);
	/// The words between the row's first and that of its rest from `place` on,
	/// and the rest's head and length. `place` has to be in the row or its end.
	fn rest(&self, place: usize) -> (usize, u8, usize);
	/// `sp_bitop_assign` with the operation of number `N`.
	fn bitop<const N: u8>(&mut self, rhs: &Self);
	/// `sp_copy_from_bitslice`.
	fn copy_from(&mut self, src: &Self);
	/// `sp_copy_within_unchecked`.
	///
	/// # Safety
	/// Both ranges have to lie in the row.
	unsafe fn copy_within(&mut self, src: Range<usize>, dest: usize);
	/// `sp_eq`.
	fn same(&self, other: &Self) -> bool;
	/// `sp_first_one`.
	fn first_one(&self) -> Option<usize>;
	/// `sp_last_one`.
	fn last_one(&self) -> Option<usize>;
	/// `sp_first_zero`.
	fn first_zero(&self) -> Option<usize>;
	/// `sp_last_zero`.
	fn last_zero(&self) -> Option<usize>;
	/// `sp_swap_with_bitslice`.
	fn swap(&mut self, other: &mut Self);
}

macro_rules! row {
	($($o:ty),+) => { $(
		impl<T> Row for BitSlice<T, $o>
		where T: Word
		{
			#[inline]
			fn read(&self, index: usize) -> bool {
				assert!(index < self.len());
				unsafe { self.as_bitptr().add(index).read() }
			}

			#[inline]
			fn write(&mut self, index: usize, value: bool) {
				assert!(index < self.len());
				unsafe { self.as_mut_bitptr().add(index).write(value) }
			}

			#[inline]
			fn rest(&self, place: usize) -> (usize, u8, usize) {
				assert!(place <= self.len());
				let (first, rest) = unsafe { self.split_at_unchecked(place) };
				let address = |part: &Self| part.as_bitspan().address().to_const() as usize;
				let words = (address(rest) - address(first)) / size_of::<T>();
				(words, rest.as_bitspan().head().into_inner(), rest.len())
			}

			#[inline]
			fn bitop<const N: u8>(&mut self, rhs: &Self) {
				self.sp_bitop_assign(rhs, word_op::<N>, bool_op::<N>)
			}

			#[inline]
			fn copy_from(&mut self, src: &Self) {
				self.sp_copy_from_bitslice(src)
			}

			#[inline]
			unsafe fn copy_within(&mut self, src: Range<usize>, dest: usize) {
				self.sp_copy_within_unchecked(src, dest)
			}

			#[inline]
			fn same(&self, other: &Self) -> bool {
				self.sp_eq(other)
			}

			#[inline]
			fn first_one(&self) -> Option<usize> {
				self.sp_first_one()
			}

			#[inline]
			fn last_one(&self) -> Option<usize> {
				self.sp_last_one()
			}

			#[inline]
			fn first_zero(&self) -> Option<usize> {
				self.sp_first_zero()
			}

			#[inline]
			fn last_zero(&self) -> Option<usize> {
				self.sp_last_zero()
			}

			#[inline]
			fn swap(&mut self, other: &mut Self) {
				self.sp_swap_with_bitslice(other)
			}
		}
	)+ };
}

row!(Lsb0, Msb0);

/// `O::at`; `index` has to be below the word's width.
pub fn at<T: Word, O: BitOrder>(index: u8) -> u8 {
	O::at::<T>(BitIdx::new(index).expect("index")).into_inner()
}

/// `O::select`; `index` has to be below the word's width.
pub fn select<T: Word, O: BitOrder>(index: u8) -> T {
	O::select::<T>(BitIdx::new(index).expect("index")).into_inner()
}

/// `O::mask`; `from` has to be below the word's width, `upto` not above it.
pub fn mask<T: Word, O: BitOrder>(from: u8, upto: u8) -> T {
	let from = BitIdx::<T>::new(from).expect("from");
	let upto = BitEnd::<T>::new(upto).expect("upto");
	O::mask::<T>(from, upto).into_inner()
}
