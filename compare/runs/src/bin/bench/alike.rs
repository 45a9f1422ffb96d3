//! Fields by hand, before they are timed: they refuse what the library refuses, and do the same with the rest.

use exported::on_u64;
use runs::random::Random;

use crate::plain::checked;

/// The most words that are lent here, one more than are taken.
const WORDS: usize = 65_537;

/// Puts so many requests at, below and above the limits to both, and stops where they differ.
pub fn check(requests: usize) {
    let mut random = Random::new(3);
    let mut words: Vec<u64> = (0..WORDS).map(|_| random.bits()).collect();
    let mut twin = words.clone();
    for _ in 0..requests {
        let lent = random.one_of(&[0, 1, 2, 3, WORDS - 1, WORDS]);
        let order = random.one_of(&[0, 0, 0, 1, 1, 1, 2]);
        let word = random.one_of(&[0, 0, 1, lent.wrapping_sub(2), lent.wrapping_sub(1), lent, lent + 1, usize::MAX]);
        let head = random.one_of(&[0, 1, 31, 62, 63, 63, 64, usize::MAX]);
        let length = random.one_of(&[0, 1, 2, 7, 8, 9, 32, 63, 64, 65, usize::MAX]);
        let k = random.one_of(&[8, 8, 16, 32, 64, 64, 64, 0, 7, 24, 128, usize::MAX]);
        let [significance, sign, below] = [(); 3].map(|()| random.one_of(&[0, 0, 0, 1, 1, 1, 255]));
        let value = [0, 1, 127, 128, 255, 256, u64::MAX >> 1, u64::MAX, random.bits()][random.upto(8) as usize];

        let (mut out, mut by_hand) = (7, 7);
        let (row, row_twin) = (words.as_mut_ptr(), twin.as_mut_ptr());
        let loads = unsafe {
            (
                on_u64::load(row, lent, order, word, head, length, k, significance, sign, &mut out),
                checked::load(row_twin, lent, order, word, head, length, k, significance, sign, &mut by_hand),
            )
        };
        assert!(loads.0 == loads.1 && out == by_hand, "loads differ: {loads:?}");
        let stores = unsafe {
            (
                on_u64::store(row, lent, order, word, head, length, k, significance, sign, below, value),
                checked::store(row_twin, lent, order, word, head, length, k, significance, sign, below, value),
            )
        };
        assert!(stores.0 == stores.1, "stores differ: {stores:?}");
    }
    assert!(words == twin, "stores leave different words");
}
