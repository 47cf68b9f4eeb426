//! Octets as they stand in frames: as numbers of the library, and wiped.

use core::sync::atomic::{compiler_fence, Ordering};

/// The number that at most eight octets stand for, the first one most significant.
pub fn number(octets: &[u8]) -> u64 {
    octets.iter().fold(0, |number, octet| number << 8 | u64::from(*octet))
}

/// The address that a number stands for: its last six octets, the first one most significant.
pub fn address(number: u64) -> [u8; 6] {
    let [_, _, address @ ..] = number.to_be_bytes();
    address
}

/// The numbers of the first and the last eight octets.
pub fn halves(octets: &[u8; 16]) -> (u64, u64) {
    (number(&octets[..8]), number(&octets[8..]))
}

/// Wipes octets by writes that the compiler leaves in.
pub fn wipe(octets: &mut [u8]) {
    for octet in octets {
        // SAFETY: the reference is valid for a write.
        unsafe { core::ptr::write_volatile(octet, 0) };
    }
    compiler_fence(Ordering::SeqCst);
}

/// What is read of a value's place once the value is dropped.
#[cfg(test)]
pub fn after_drop<T, R>(value: T, read: impl FnOnce(*const T) -> R) -> R {
    let mut place = core::mem::MaybeUninit::new(value);
    // SAFETY: the place holds a value, which is dropped once.
    unsafe { place.assume_init_drop() };
    read(place.as_ptr())
}
