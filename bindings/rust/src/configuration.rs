//! What a station is given before its first event.

use crate::octets::wipe;
use crate::Edition;
use core::fmt;

/// What a station is given before its first event; octets as they stand in frames.
///
/// The NMK is wiped on drop, and `Debug` does not show it.
///
/// ```
/// use lahzavar::{Configuration, Edition};
/// let configuration = Configuration {
///     address: [2, 0, 0, 0, 0, 0xAA],
///     modem: [2, 0, 0, 0, 0, 0xBB],
///     nid: [1, 2, 3, 4, 5, 6, 7],
///     nmk: [0x4B; 16],
///     validation_not_required: false,
///     edition: Edition::Iso,
///     carriers: 1155,
/// };
/// let shown = format!("{configuration:?}");
/// assert!(shown.contains("nid: [1, 2, 3, 4, 5, 6, 7], "));
/// assert!(shown.ends_with("validation_not_required: false, edition: Iso, carriers: 1155, .. }"));
/// ```
#[derive(Clone)]
pub struct Configuration {
    /// The station's own address.
    pub address: [u8; 6],
    /// Its modem's address.
    pub modem: [u8; 6],
    /// The network ID, low octet first, the last octet at most 3F.
    pub nid: [u8; 7],
    /// The network membership key; ISO 15118-3 wants a fresh one for each plug-in.
    pub nmk: [u8; 16],
    /// Usually false: a car that doubts which station it hangs on may ask for a validation, switch
    /// the pilot between B and C, and be told how often the station saw that. True is for a place
    /// where no car can be at the wrong bay, and for a site of the SAE edition: the station then
    /// answers "not required" to every such request, and never counts.
    pub validation_not_required: bool,
    /// By which standard the station reads and writes.
    pub edition: Edition,
    /// The carriers of the station's modem, as its manual says, 1 to [`CARRIERS`](crate::CARRIERS).
    /// They decide about amplitude maps alone: the matched car's with another number of carriers is
    /// [`Refusal::OtherCarrierCount`](crate::Refusal::OtherCarrierCount).
    pub carriers: u32,
}

impl Drop for Configuration {
    fn drop(&mut self) {
        wipe(&mut self.nmk);
    }
}

/// Shows everything but the NMK.
impl fmt::Debug for Configuration {
    fn fmt(&self, f: &mut fmt::Formatter) -> fmt::Result {
        let mut shown = f.debug_struct("Configuration");
        shown.field("address", &self.address).field("modem", &self.modem).field("nid", &self.nid);
        shown.field("validation_not_required", &self.validation_not_required);
        shown.field("edition", &self.edition).field("carriers", &self.carriers);
        shown.finish_non_exhaustive()
    }
}

#[cfg(test)]
mod tests {
    use super::{Configuration, Edition};
    use crate::octets::after_drop;
    use core::ptr::addr_of;

    #[test]
    fn a_dropped_configuration_is_wiped() {
        let configuration = Configuration {
            address: [2; 6],
            modem: [4; 6],
            nid: [6; 7],
            nmk: [0x4B; 16],
            validation_not_required: false,
            edition: Edition::Iso,
            carriers: 1155,
        };
        // SAFETY: octets stay octets.
        let nmk = after_drop(configuration, |dropped| unsafe {
            addr_of!((*dropped).nmk).read_volatile()
        });
        assert_eq!(nmk, [0; 16]);
    }
}
