// A stand-in for the crate's root, which is not to be had: modules and the names that they import from it.

#[macro_use]
pub mod address;
pub use address::{Address, AddressValue};

pub mod bitmap;

pub mod atomic_integer;
pub use atomic_integer::AtomicInteger;

pub mod bytes;
pub use bytes::{AtomicAccess, ByteValued, Bytes};

pub mod io;
pub use io::{ReadVolatile, WriteVolatile};

pub mod guest_memory;
pub use guest_memory::{
    Error as GuestMemoryError, FileOffset, GuestAddress, GuestAddressSpace, GuestMemory,
    GuestMemoryBackend, GuestMemorySliceIterator, GuestUsize, MemoryRegionAddress, Permissions,
};

pub mod iommu;
pub use iommu::{Iommu, IommuMemory, Iotlb};

pub mod region;
pub use region::{
    GuestMemoryRegion, GuestMemoryRegionBytes, GuestRegionCollection, GuestRegionCollectionError,
};

pub mod volatile_memory;
pub use volatile_memory::{
    Error as VolatileMemoryError, VolatileArrayRef, VolatileMemory, VolatileRef, VolatileSlice,
};
