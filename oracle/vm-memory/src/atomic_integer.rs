// A stand-in for the crate's src/atomic_integer.rs: the integers of std::sync::atomic under one trait.

use std::sync::atomic::*;

use crate::bytes::ByteValued;

/// Objects that implement this trait must consist exclusively of atomic types from
/// `std::sync::atomic`, apart from a value that is atomic itself.
///
/// # Safety
///
/// The memory of the type must be valid for any pattern of bits.
pub unsafe trait AtomicInteger: Sync + Send {
    /// The plain integer behind the atomic one.
    type V: ByteValued;

    /// Makes the atomic integer from a plain one.
    fn new(v: Self::V) -> Self;

    /// The present value.
    fn load(&self, order: Ordering) -> Self::V;

    /// Puts a value in place of the present one.
    fn store(&self, val: Self::V, order: Ordering);
}

macro_rules! atomic {
    ($($T:path, $V:ty;)+) => {$(
        // SAFETY: an atomic integer has the layout of the plain one.
        unsafe impl AtomicInteger for $T {
            type V = $V;

            fn new(v: $V) -> Self {
                Self::new(v)
            }

            fn load(&self, order: Ordering) -> $V {
                self.load(order)
            }

            fn store(&self, val: $V, order: Ordering) {
                self.store(val, order)
            }
        }
    )+};
}

atomic! {
    AtomicI8, i8; AtomicI16, i16; AtomicI32, i32; AtomicI64, i64; AtomicIsize, isize;
    AtomicU8, u8; AtomicU16, u16; AtomicU32, u32; AtomicU64, u64; AtomicUsize, usize;
}
