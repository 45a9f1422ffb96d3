//! STAND-IN for slice.rs and slice/api.rs. The struct and each function that a
//! comment "slice.rs A-B" or "api.rs A-B" announces are lines A to B of the
//! published file (../../given), documentation left out; ../../check.sh compares.

use core::{marker::PhantomData, ops::Range};

use wyz::comu::{Const, Mut};

use crate::{
	domain::Domain,
	order::{BitOrder, Lsb0},
	ptr::{BitPtr, BitPtrRange, BitSpan},
	store::BitStore,
};

mod iter; // STAND-IN
mod specialization; // VERBATIM

pub use self::iter::{Chunks, ChunksMut, ChunksMutNoAlias, Iter};

// slice.rs 58-86
#[repr(transparent)]
pub struct BitSlice<T = usize, O = Lsb0>
where
	T: BitStore,
	O: BitOrder,
{
	_ord: PhantomData<O>,
	_typ: PhantomData<[T]>,
	_mem: [()],
}

impl<T, O> BitSlice<T, O>
where
	T: BitStore,
	O: BitOrder,
{
	// slice.rs 449-451
	#[inline]
	pub fn as_bitptr(&self) -> BitPtr<Const, T, O> {
		self.as_bitspan().to_bitptr()
	}

	// slice.rs 464-466
	#[inline]
	pub fn as_mut_bitptr(&mut self) -> BitPtr<Mut, T, O> {
		self.as_mut_bitspan().to_bitptr()
	}

	// slice.rs 488-490
	#[inline]
	pub fn as_bitptr_range(&self) -> BitPtrRange<Const, T, O> {
		self.as_bitspan().to_bitptr_range()
	}

	// slice.rs 510-512
	#[inline]
	pub fn as_mut_bitptr_range(&mut self) -> BitPtrRange<Mut, T, O> {
		self.as_mut_bitspan().to_bitptr_range()
	}

	// slice.rs 877-886
	#[inline]
	pub unsafe fn split_at_unchecked(&self, mid: usize) -> (&Self, &Self) {
		let len = self.len();
		let left = self.as_bitptr();
		let right = left.add(mid);
		let left = left.span_unchecked(mid);
		let right = right.span_unchecked(len - mid);
		let left = left.into_bitslice_ref();
		let right = right.into_bitslice_ref();
		(left, right)
	}

	// slice.rs 903-914
	#[inline]
	pub unsafe fn split_at_unchecked_mut(
		&mut self,
		mid: usize,
	) -> (&mut BitSlice<T::Alias, O>, &mut BitSlice<T::Alias, O>) {
		let len = self.len();
		let left = self.alias_mut().as_mut_bitptr();
		let right = left.add(mid);
		(
			left.span_unchecked(mid).into_bitslice_mut(),
			right.span_unchecked(len - mid).into_bitslice_mut(),
		)
	}

	// slice.rs 1025-1027
	#[inline]
	pub fn domain(&self) -> Domain<Const, T, O> {
		Domain::new(self)
	}

	// slice.rs 1038-1040
	#[inline]
	pub fn domain_mut(&mut self) -> Domain<Mut, T, O> {
		Domain::new(self)
	}

	// slice.rs 1578-1580
	pub(crate) fn as_bitspan(&self) -> BitSpan<Const, T, O> {
		BitSpan::from_bitslice_ptr(self)
	}

	// slice.rs 1583-1585
	pub(crate) fn as_mut_bitspan(&mut self) -> BitSpan<Mut, T, O> {
		BitSpan::from_bitslice_ptr_mut(self)
	}

	// slice.rs 1610-1612
	pub(crate) fn alias_mut(&mut self) -> &mut BitSlice<T::Alias, O> {
		unsafe { self.as_mut_bitspan().cast::<T::Alias>().into_bitslice_mut() }
	}

	// slice.rs 1622-1626
	pub(crate) unsafe fn unalias_mut(
		this: &mut BitSlice<T::Alias, O>,
	) -> &mut Self {
		this.as_mut_bitspan().cast::<T>().into_bitslice_mut()
	}

	// slice.rs 1641-1649
	pub(crate) unsafe fn split_at_unchecked_mut_noalias(
		&mut self,
		mid: usize,
	) -> (&mut Self, &mut Self) {
		//  Split the slice at the requested midpoint, adding an alias layer
		let (head, tail) = self.split_at_unchecked_mut(mid);
		//  Remove the new alias layer.
		(Self::unalias_mut(head), Self::unalias_mut(tail))
	}

	// api.rs 87-89
	#[inline]
	pub fn len(&self) -> usize {
		self.as_bitspan().len()
	}

	/// api.rs takes any `BitSliceIndex` here; the verbatim files hand in a
	/// `Range<usize>`, for which api.rs does exactly this.
	///
	/// # Safety
	/// The range has to lie in the bit-slice.
	#[inline]
	pub unsafe fn get_unchecked(&self, range: Range<usize>) -> &Self {
		let Range { start, end } = range;
		self.as_bitspan()
			.to_bitptr()
			.add(start)
			.span_unchecked(end - start)
			.into_bitslice_ref()
	}

	// api.rs 666-668
	#[inline]
	pub fn iter(&self) -> Iter<T, O> {
		Iter::new(self)
	}

	// api.rs 783-785
	#[inline]
	pub fn chunks(&self, chunk_size: usize) -> Chunks<T, O> {
		Chunks::new(self, chunk_size)
	}

	// api.rs 834-836
	#[inline]
	pub fn chunks_mut(&mut self, chunk_size: usize) -> ChunksMut<T, O> {
		ChunksMut::new(self, chunk_size)
	}
}
