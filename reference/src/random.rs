//! Random numbers from a seed, and frames damaged by them.

use crate::messages::{Address, Edition, Kind, Message};
use crate::script::MOST;

/// SplitMix64.
#[derive(Clone)]
pub struct Random(u64);

impl Random {
    pub fn new(seed: u64) -> Random {
        Random(seed)
    }

    pub fn next(&mut self) -> u64 {
        self.0 = self.0.wrapping_add(0x9E37_79B9_7F4A_7C15);
        let mixed = (self.0 ^ (self.0 >> 30)).wrapping_mul(0xBF58_476D_1CE4_E5B9);
        let mixed = (mixed ^ (mixed >> 27)).wrapping_mul(0x94D0_49BB_1331_11EB);
        mixed ^ (mixed >> 31)
    }

    /// A number below the bound, or 0.
    pub fn below(&mut self, bound: usize) -> usize {
        (self.next() % (bound.max(1) as u64)) as usize
    }

    pub fn chance(&mut self, per_cent: usize) -> bool {
        self.below(100) < per_cent
    }

    /// One of the choices; `otherwise` if there are none.
    pub fn pick<T: Copy>(&mut self, choices: &[T], otherwise: T) -> T {
        choices.get(self.below(choices.len())).copied().unwrap_or(otherwise)
    }

    pub fn octets<const N: usize>(&mut self) -> [u8; N] {
        std::array::from_fn(|_| self.next() as u8)
    }

    pub fn unicast(&mut self, last: u8) -> Address {
        let [a, b, c, d, e] = self.octets();
        Address([a & 0xFE, b, c, d, e, last])
    }

    /// The message's frame, now and then with something changed.
    pub fn frame(
        &mut self,
        message: &Message,
        edition: Edition,
        damage: usize,
        ours: [Address; 2],
    ) -> Vec<u8> {
        let mut octets = message.to_frame(edition).unwrap_or_default();
        self.change(&mut octets, message.body.kind(), message.body.count(), damage, ours);
        octets
    }

    /// Changes the frame of a message with so many groups or carriers: now and then reserved octets
    /// are set, so often in a hundred it is damaged, else now and then its padding is cut or filled.
    /// Damage may put one of our addresses in the wrong place.
    pub fn change(
        &mut self,
        octets: &mut Vec<u8>,
        kind: Kind,
        count: u16,
        damage: usize,
        ours: [Address; 2],
    ) {
        if self.chance(20) {
            self.set_reserved(kind, octets);
        }
        if self.chance(damage) {
            self.damage(octets, ours);
            if self.chance(30) {
                self.damage(octets, ours);
            }
        } else if self.chance(5) {
            let shortest = kind.shortest_with(count);
            let padded = octets.len().saturating_sub(shortest);
            octets.truncate(shortest + self.below(padded + 1));
            let padding = self.next() as u8;
            octets.iter_mut().skip(shortest).for_each(|octet| *octet = padding);
        }
    }

    /// Sets the reserved octets to any values, or one bit of them.
    fn set_reserved(&mut self, kind: Kind, octets: &mut [u8]) {
        let places = || kind.reserved().iter().flat_map(|(from, to)| 19 + from..19 + to);
        let one = self.below(places().count());
        let all = self.chance(50);
        for (index, at) in places().enumerate() {
            let value = if all { self.next() as u8 } else { 1 << self.below(8) };
            if all || index == one {
                replace(octets, at, &[value]);
            }
        }
    }

    fn damage(&mut self, octets: &mut Vec<u8>, ours: [Address; 2]) {
        let [one, two] = ours;
        let length = octets.len();
        let other = self.unicast(0xCC);
        let group = Address([3, 0, 0, 0, 0, 1]);
        let end = [one, two, other, group, Address::BROADCAST, Address([0; 6])];
        let end = self.pick(&end, group);
        let kind = self.pick(&Kind::ALL, Kind::ParmReq);
        let near = kind.type_number().wrapping_add(self.below(3) as u16);
        let shortest = Kind::of(octets).map_or(19, Kind::shortest);
        match self.below(12) {
            0..=4 => {
                let any = self.below(length);
                let payload = 19 + self.below(shortest - 19);
                let at = self.pick(&[any, any, payload, payload, 17, 18, 19, 70, 91], any);
                let bit = 1 << self.below(8);
                octets.iter_mut().skip(at).take(1).for_each(|octet| *octet ^= bit);
            }
            5 => octets.truncate(self.below(length)),
            6 => {
                octets.truncate(self.pick(&[0, 18, 19, 20, shortest - 1], shortest));
            }
            7 => octets.resize(MOST.min(length + 1 + self.below(60)), 0),
            8 => replace(octets, 0, &end.0),
            9 => replace(octets, 6, &end.0),
            10 => replace(octets, 15, &near.wrapping_sub(1).to_le_bytes()),
            _ => {
                let length = self.pick(&[30, 60, 129, MOST], 60);
                *octets = (0..length).map(|_| self.next() as u8).collect();
            }
        }
    }
}

/// Puts other octets from a place on, as far as there are any.
pub fn replace(octets: &mut [u8], at: usize, by: &[u8]) {
    octets.iter_mut().skip(at).zip(by).for_each(|(octet, new)| *octet = *new);
}
