//! What a station has given a car.

use crate::octets::wipe;
use core::fmt;

/// The station that a car joins or has joined, and its network; octets as they stand in frames.
///
/// The NMK is wiped on drop, and `Debug` does not show it.
///
/// ```
/// use lahzavar::Key;
/// let key = Key { station: [2, 0, 0, 0, 0, 0xAA], nid: [1, 2, 3, 4, 5, 6, 7], nmk: [0x4B; 16] };
/// assert!(format!("{key:?}").ends_with("nid: [1, 2, 3, 4, 5, 6, 7], .. }"));
/// ```
#[derive(Clone)]
pub struct Key {
    /// The station's address.
    pub station: [u8; 6],
    /// The network ID, low octet first.
    pub nid: [u8; 7],
    /// The network membership key.
    pub nmk: [u8; 16],
}

impl Drop for Key {
    fn drop(&mut self) {
        wipe(&mut self.nmk);
    }
}

/// Shows everything but the NMK.
impl fmt::Debug for Key {
    fn fmt(&self, f: &mut fmt::Formatter) -> fmt::Result {
        let mut shown = f.debug_struct("Key");
        shown.field("station", &self.station).field("nid", &self.nid).finish_non_exhaustive()
    }
}

#[cfg(test)]
mod tests {
    use super::Key;
    use crate::octets::after_drop;
    use core::ptr::addr_of;

    #[test]
    fn a_dropped_key_is_wiped() {
        let key = Key { station: [2; 6], nid: [6; 7], nmk: [0x4B; 16] };
        // SAFETY: octets stay octets.
        let nmk = after_drop(key, |key| unsafe { addr_of!((*key).nmk).read_volatile() });
        assert_eq!(nmk, [0; 16]);
    }
}
