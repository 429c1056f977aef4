//! The address operations. The originals have two address types with the same operations, so each is
//! asked of both, and they have to agree.

use vm_memory::{Address, GuestAddress, MemoryRegionAddress};

use crate::answer;

fn agreed(guest: String, region: String) -> String {
    assert_eq!(guest, region, "the two address types differ");
    guest
}

pub fn add(address: u64, n: u64) -> String {
    fn on<A: Address<V = u64>>(address: u64, n: u64) -> String {
        let address = A::new(address);
        answer::checked(address.checked_add(n), address.overflowing_add(n))
    }
    agreed(on::<GuestAddress>(address, n), on::<MemoryRegionAddress>(address, n))
}

pub fn sub(address: u64, n: u64) -> String {
    fn on<A: Address<V = u64>>(address: u64, n: u64) -> String {
        let address = A::new(address);
        answer::checked(address.checked_sub(n), address.overflowing_sub(n))
    }
    agreed(on::<GuestAddress>(address, n), on::<MemoryRegionAddress>(address, n))
}

pub fn offset(address: u64, base: u64) -> String {
    fn on<A: Address<V = u64>>(address: u64, base: u64) -> String {
        let offset = A::new(address).checked_offset_from(A::new(base));
        offset.map_or("none".to_string(), |offset| format!("ok {offset:#x}"))
    }
    agreed(on::<GuestAddress>(address, base), on::<MemoryRegionAddress>(address, base))
}

pub fn mask(address: u64, mask: u64) -> String {
    fn on<A: Address<V = u64>>(address: u64, mask: u64) -> String {
        format!("ok {:#x}", A::new(address).mask(mask))
    }
    agreed(on::<GuestAddress>(address, mask), on::<MemoryRegionAddress>(address, mask))
}
