//! The box's bytes, and a region type of the driver's own above them.

use std::sync::Arc;

use vm_memory::guest_memory::Result;
use vm_memory::{
    GuestAddress, GuestMemoryError, GuestMemoryRegion, GuestMemoryRegionBytes, GuestUsize,
    MemoryRegionAddress, VolatileSlice,
};

/// The host buffer. Its words are 64 bits wide so that place 0 is aligned to 8.
pub struct Host {
    words: Box<[u64]>,
    length: usize,
}

impl Host {
    /// The byte at place p is (7 × p + 3) mod 256.
    pub fn new(length: usize) -> Self {
        let byte = |place: usize| (place % 256 * 7 + 3) as u8;
        let words = (0..length.div_ceil(8))
            .map(|word| u64::from_ne_bytes(std::array::from_fn(|i| byte(8 * word + i))))
            .collect();
        Host { words, length }
    }

    pub fn length(&self) -> u64 {
        self.length as u64
    }

    /// The whole buffer as the original sees host memory.
    pub fn whole(&self) -> VolatileSlice<'_> {
        // SAFETY: the words hold at least `length` bytes and live as long as `self`; nothing of
        // this delivery changes them.
        unsafe { VolatileSlice::new(self.words.as_ptr() as *mut u8, self.length) }
    }

    /// The place at which a slice of this buffer begins.
    pub fn place(&self, slice: &VolatileSlice<'_>) -> u64 {
        (slice.ptr_guard().as_ptr() as usize - self.words.as_ptr() as usize) as u64
    }

    /// FNV-1a, 64 bits, over the whole buffer.
    pub fn digest(&self) -> u64 {
        let mut bytes = vec![0u8; self.length];
        self.whole().copy_to(&mut bytes);
        bytes.iter().fold(0xcbf29ce484222325, |hash: u64, byte| {
            (hash ^ u64::from(*byte)).wrapping_mul(0x100000001b3)
        })
    }
}

/// A region as a script names it: RAM at a place of the host buffer, or a window without one.
#[derive(Clone, Copy)]
pub struct Shape {
    pub start: u64,
    pub length: u64,
    pub place: Option<u64>,
}

impl Shape {
    /// The question that the originals leave to whoever makes a region: not empty, not past the top
    /// of the address space, and its bytes within the host buffer.
    pub fn sound(&self, host: &Host) -> bool {
        let fits = |from: u64, most: u128| u128::from(from) + u128::from(self.length) <= most;
        self.length >= 1
            && fits(self.start, 1 << 64)
            && self.place.is_none_or(|place| fits(place, host.length().into()))
    }

    pub fn over(self, host: &Arc<Host>) -> Slot {
        Slot { shape: self, host: Arc::clone(host) }
    }
}

/// The region that the originals are given: a shape above the host buffer, without a bitmap.
pub struct Slot {
    pub shape: Shape,
    host: Arc<Host>,
}

impl GuestMemoryRegion for Slot {
    type B = ();

    fn len(&self) -> GuestUsize {
        self.shape.length
    }

    fn start_addr(&self) -> GuestAddress {
        GuestAddress(self.shape.start)
    }

    fn bitmap(&self) {}

    fn get_slice(&self, offset: MemoryRegionAddress, count: usize) -> Result<VolatileSlice<'_>> {
        // A window answers as a region without a `get_slice` of its own does.
        let place = self.shape.place.ok_or(GuestMemoryError::HostAddressNotAvailable)?;
        let region = self.host.whole().subslice(place as usize, self.shape.length as usize)?;
        Ok(region.subslice(offset.0 as usize, count)?)
    }
}

impl GuestMemoryRegionBytes for Slot {}
