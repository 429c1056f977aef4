//! What a line is answered, as text.

use vm_memory::{Address, GuestMemoryError, GuestRegionCollectionError};

use crate::host::Shape;

/// A refusal, with its details.
pub enum Refusal {
    NoMemoryRegion,
    UnsortedMemoryRegions,
    MemoryRegionOverlap,
    BadRegion(u64),
    NoRoom,
    InvalidGuestAddress(u64),
    GuestAddressOverflow,
    HostAddressNotAvailable,
    InvalidBackendAddress,
    BadPermissions,
}

impl Refusal {
    pub fn text(&self) -> String {
        let (number, name, detail) = match *self {
            Refusal::NoMemoryRegion => (1, "NoMemoryRegion", None),
            Refusal::UnsortedMemoryRegions => (2, "UnsortedMemoryRegions", None),
            Refusal::MemoryRegionOverlap => (3, "MemoryRegionOverlap", None),
            Refusal::BadRegion(index) => (4, "BadRegion", Some(index)),
            Refusal::NoRoom => (5, "NoRoom", None),
            Refusal::InvalidGuestAddress(target) => (8, "InvalidGuestAddress", Some(target)),
            Refusal::GuestAddressOverflow => (9, "GuestAddressOverflow", None),
            Refusal::HostAddressNotAvailable => (10, "HostAddressNotAvailable", None),
            Refusal::InvalidBackendAddress => (11, "InvalidBackendAddress", None),
            Refusal::BadPermissions => (14, "BadPermissions", None),
        };
        match detail {
            Some(detail) => format!("refused {number} {name} {detail:#x}"),
            None => format!("refused {number} {name}"),
        }
    }
}

impl From<GuestRegionCollectionError> for Refusal {
    fn from(error: GuestRegionCollectionError) -> Self {
        match error {
            GuestRegionCollectionError::NoMemoryRegion => Refusal::NoMemoryRegion,
            GuestRegionCollectionError::MemoryRegionOverlap => Refusal::MemoryRegionOverlap,
            GuestRegionCollectionError::UnsortedMemoryRegions => Refusal::UnsortedMemoryRegions,
        }
    }
}

impl From<GuestMemoryError> for Refusal {
    fn from(error: GuestMemoryError) -> Self {
        match error {
            GuestMemoryError::InvalidGuestAddress(target) => Refusal::InvalidGuestAddress(target.0),
            GuestMemoryError::GuestAddressOverflow => Refusal::GuestAddressOverflow,
            GuestMemoryError::HostAddressNotAvailable => Refusal::HostAddressNotAvailable,
            GuestMemoryError::InvalidBackendAddress => Refusal::InvalidBackendAddress,
            other => panic!("no question of a script is answered by {other:?}"),
        }
    }
}

/// `START+LENGTH PLACE`, the place of a window being `none`.
pub fn region(shape: &Shape) -> String {
    let place = shape.place.map_or("none".to_string(), |place| format!("{place:#x}"));
    format!("{:#x}+{:#x} {place}", shape.start, shape.length)
}

/// A checked result, absent outside the range, then the overflowing one and whether it wrapped.
pub fn checked<A: Address<V = u64>>(result: Option<A>, (wrapped, over): (A, bool)) -> String {
    let result = result.map_or("none".to_string(), |result| format!("{:#x}", result.raw_value()));
    format!("ok {result} {:#x} {over}", wrapped.raw_value())
}

/// Pairs of digits, or `-` where there is no byte.
pub fn bytes(bytes: &[u8]) -> String {
    if bytes.is_empty() {
        return "-".to_string();
    }
    bytes.iter().map(|byte| format!("{byte:02x}")).collect()
}
