// A stand-in for the crate's src/io.rs: the two stream traits, implemented for byte slices alone.

use crate::bitmap::BitmapSlice;
use crate::volatile_memory::copy_slice_impl::{copy_from_volatile_slice, copy_to_volatile_slice};
use crate::volatile_memory::{Error, Result, VolatileSlice};
use std::io;

/// Tries again where the operation was interrupted.
macro_rules! retry_eintr {
    ($call:expr) => {
        loop {
            match $call {
                Err(crate::volatile_memory::Error::IOError(err))
                    if err.kind() == std::io::ErrorKind::Interrupted => {}
                other => break other,
            }
        }
    };
}
pub(crate) use retry_eintr;

/// A source of bytes for volatile memory.
pub trait ReadVolatile {
    /// Fills the front of `buf` and tells how many bytes it took.
    fn read_volatile<B: BitmapSlice>(&mut self, buf: &mut VolatileSlice<'_, B>) -> Result<usize>;

    /// Fills all of `buf`.
    fn read_exact_volatile<B: BitmapSlice>(
        &mut self,
        buf: &mut VolatileSlice<'_, B>,
    ) -> Result<()> {
        let mut rest = buf.offset(0)?;
        while !rest.is_empty() {
            match retry_eintr!(self.read_volatile(&mut rest))? {
                0 => return Err(Error::IOError(io::ErrorKind::UnexpectedEof.into())),
                n => rest = rest.offset(n)?,
            }
        }
        Ok(())
    }
}

/// A sink for bytes of volatile memory.
pub trait WriteVolatile {
    /// Takes bytes from the front of `buf` and tells how many.
    fn write_volatile<B: BitmapSlice>(&mut self, buf: &VolatileSlice<'_, B>) -> Result<usize>;

    /// Takes all of `buf`.
    fn write_all_volatile<B: BitmapSlice>(&mut self, buf: &VolatileSlice<'_, B>) -> Result<()> {
        let mut rest = buf.offset(0)?;
        while !rest.is_empty() {
            match retry_eintr!(self.write_volatile(&rest))? {
                0 => return Err(Error::IOError(io::ErrorKind::WriteZero.into())),
                n => rest = rest.offset(n)?,
            }
        }
        Ok(())
    }
}

impl ReadVolatile for &[u8] {
    fn read_volatile<B: BitmapSlice>(&mut self, buf: &mut VolatileSlice<'_, B>) -> Result<usize> {
        let total = buf.len().min(self.len());
        // SAFETY: both sides hold at least `total` bytes, and a slice is no guest memory.
        let moved = unsafe { copy_to_volatile_slice(buf, self.as_ptr(), total) };
        *self = &self[moved..];
        Ok(moved)
    }
}

impl WriteVolatile for &mut [u8] {
    fn write_volatile<B: BitmapSlice>(&mut self, buf: &VolatileSlice<'_, B>) -> Result<usize> {
        let total = buf.len().min(self.len());
        // SAFETY: both sides hold at least `total` bytes, and a slice is no guest memory.
        let moved = unsafe { copy_from_volatile_slice(self.as_mut_ptr(), buf, total) };
        *self = &mut std::mem::take(self)[moved..];
        Ok(moved)
    }
}
