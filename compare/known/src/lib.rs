//! What libknown.a exports: many fields, Lsb0 le and unsigned, taken in one call by Rattle code that knows so much of them.

/// Declares calls on fields of k bits, each at a head of a word. A slice is a pointer and a length.
macro_rules! calls {
    ($($name:ident($words:ty, $last:ident: $kind:ty);)*) => {
        extern "C" {
            $(
                pub fn $name(
                    words: $words,
                    lent: usize,
                    places: *const usize,
                    fields: usize,
                    heads: *const usize,
                    also_fields: usize,
                    k: usize,
                    $last: $kind,
                );
            )*
        }
    };
}

calls! {
    known8_loads(*const u8, mix: *mut u64);
    known8_stores(*mut u8, value: u64);
    known64_loads(*const u64, mix: *mut u64);
    known64_stores(*mut u64, value: u64);
}
