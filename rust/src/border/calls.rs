//! What the archive exports, as `include/stableply.h` declares it, argument for argument.
//!
//! This file alone is also the crate `exported` of compare/, so that the calls compared are the calls bound here.

/// Takes the calls on lent words: defines [`Calls`], and the macro that declares them all at one width.
macro_rules! calls_on_words {
    ($($name:ident($($argument:ident: $kind:ty),* $(,)?);)*) => {
        /// The calls on rows of `W` words.
        pub struct Calls<W> {
            $(pub $name: unsafe extern "C" fn($($argument: $kind),*) -> u8,)*
        }

        /// Declares the calls on one kind of words in a module, and gathers them in a [`Calls`].
        macro_rules! width {
            ($word:ty, $prefix:literal, $module:ident, $calls:ident) => {
                #[doc = concat!("The calls on words of type `", stringify!($word), "`.")]
                pub mod $module {
                    type W = $word;
                    unsafe extern "C" {
                        $(
                            #[link_name = concat!($prefix, stringify!($name))]
                            pub fn $name($($argument: $kind),*) -> u8;
                        )*
                    }
                }

                pub const $calls: Calls<$word> = Calls { $($name: $module::$name),* };
            };
        }
    };
}

calls_on_words! {
    read_bit(words: *const W, lent: usize, order: u8, word: usize, head: usize, length: usize,
             index: usize, out: *mut u8);
    write_bit(words: *mut W, lent: usize, order: u8, word: usize, head: usize, length: usize,
              index: usize, bit: u8);
    load(words: *const W, lent: usize, order: u8, word: usize, head: usize, length: usize,
         k: usize, significance: u8, sign: u8, out: *mut u64);
    store(words: *mut W, lent: usize, order: u8, word: usize, head: usize, length: usize,
          k: usize, significance: u8, sign: u8, below: u8, value: u64);
    store_strict(words: *mut W, lent: usize, order: u8, word: usize, head: usize, length: usize,
                 k: usize, significance: u8, sign: u8, below: u8, value: u64);
    copy_from(words: *mut W, lent: usize, order: u8, word: usize, head: usize, length: usize,
              source: *const W, source_lent: usize,
              source_order: u8, source_word: usize, source_head: usize, source_length: usize);
    copy_within(words: *mut W, lent: usize, order: u8, word: usize, head: usize, length: usize,
                start: usize, count: usize, destination: usize);
    boolean(words: *mut W, lent: usize, order: u8, word: usize, head: usize, length: usize,
            right: *const W, right_lent: usize,
            right_order: u8, right_word: usize, right_head: usize, right_length: usize, operation: u8);
    swap(left: *mut W, left_lent: usize, left_order: u8, left_word: usize, left_head: usize, left_length: usize,
         right: *mut W, right_lent: usize, right_order: u8, right_word: usize, right_head: usize, right_length: usize);
    equal(left: *const W, left_lent: usize, left_order: u8, left_word: usize, left_head: usize, left_length: usize,
          right: *const W, right_lent: usize, right_order: u8, right_word: usize, right_head: usize, right_length: usize,
          out: *mut u8);
    first_one(words: *const W, lent: usize, order: u8, word: usize, head: usize, length: usize,
              found: *mut u8, at: *mut usize);
    last_one(words: *const W, lent: usize, order: u8, word: usize, head: usize, length: usize,
             found: *mut u8, at: *mut usize);
    first_zero(words: *const W, lent: usize, order: u8, word: usize, head: usize, length: usize,
               found: *mut u8, at: *mut usize);
    last_zero(words: *const W, lent: usize, order: u8, word: usize, head: usize, length: usize,
              found: *mut u8, at: *mut usize);
}

width!(u8, "stableply8_", on_u8, ON_U8);
width!(u64, "stableply64_", on_u64, ON_U64);

// The calls without lent words.
unsafe extern "C" {
    pub fn stableply_position(width: u8, order: u8, index: usize, out: *mut u64) -> u8;
    pub fn stableply_selector(width: u8, order: u8, index: usize, out: *mut u64) -> u8;
    pub fn stableply_mask(width: u8, order: u8, from: usize, upto: usize, out: *mut u64) -> u8;
    #[rustfmt::skip]
    pub fn stableply_split(
        width: u8,
        lent: usize,
        order: u8,
        word: usize,
        head: usize,
        length: usize,
        place: usize,
        rest_word: *mut usize,
        rest_head: *mut usize,
        rest_length: *mut usize,
    ) -> u8;
}
