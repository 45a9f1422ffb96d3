//! Copy inside a row of bytes, eight of them at once.

use super::rows;

/// The bits of eight bytes, from the first index at the lowest bit (Lsb0) or the highest (Msb0).
#[inline(always)]
unsafe fn read<const MSB0: bool>(bytes: *const u8) -> u64 {
    let eight = bytes.cast::<u64>().read_unaligned();
    if MSB0 {
        u64::from_be(eight)
    } else {
        u64::from_le(eight)
    }
}

/// Makes these the bits of eight bytes.
#[inline(always)]
unsafe fn write<const MSB0: bool>(bytes: *mut u8, bits: u64) {
    bytes.cast::<u64>().write_unaligned(if MSB0 { bits.to_be() } else { bits.to_le() });
}

/// Copy inside one buffer, both ranges told by their first places: the target is cut at bytes, what does not fill eight goes by
/// single ones.
#[inline(always)]
pub fn copy_within<const MSB0: bool>(bytes: &mut [u8], start: usize, to: usize, length: usize) {
    let single = |bytes: &mut [u8], begin: usize, count: usize| {
        rows::copy_within::<u8, MSB0>(bytes, start + begin, to + begin, count);
    };
    let lead = (to.wrapping_neg() % 8).min(length);
    let whole = (length - lead) / 64;
    let end = lead + 64 * whole;
    if to <= start {
        single(bytes, 0, lead);
        move_eights::<MSB0>(bytes, start + lead, (to + lead) / 8, 0..whole);
        single(bytes, end, length - end);
    } else {
        single(bytes, end, length - end);
        move_eights::<MSB0>(bytes, start + lead, (to + lead) / 8, (0..whole).rev());
        single(bytes, 0, lead);
    }
}

/// Makes eight bytes of the target those that begin at a place of the source, for each number in turn.
#[inline(always)]
fn move_eights<const MSB0: bool>(bytes: &mut [u8], start: usize, target: usize, turns: impl Iterator<Item = usize>) {
    let (source, by) = (start / 8, start % 8);
    let bytes = bytes.as_mut_ptr();
    for n in turns {
        unsafe {
            let (here, to) = (bytes.add(source + 8 * n), bytes.add(target + 8 * n));
            let bits = read::<MSB0>(here);
            let moved = match by {
                0 => bits,
                _ if MSB0 => (bits << by) | (u64::from(here.add(8).read()) >> (8 - by)),
                _ => (bits >> by) | (u64::from(here.add(8).read()) << (64 - by)),
            };
            write::<MSB0>(to, moved);
        }
    }
}
