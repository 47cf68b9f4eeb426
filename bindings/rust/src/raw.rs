//! What liblahzavar.a exports; include/lahzavar.h has the same in C.

use crate::{CAR_WORDS, GROUPS, SPREAD, SUMS, WORDS};

/// A refusal or 0, an indication or 0, the frames reported and their octets.
#[repr(C)]
pub struct Answered {
    pub refusal: u32,
    pub indication: u32,
    pub frames: u32,
    pub octets: u32,
}

/// A refusal or 0, and the sounds heard.
#[repr(C)]
pub struct Heard {
    pub refusal: u32,
    pub sounds: u32,
}

/// A refusal or 0, the state, and the car in Joining and Matched, else 0.
#[repr(C)]
pub struct Inspected {
    pub refusal: u32,
    pub state: u32,
    pub car: u64,
}

/// A refusal or 0, a message's type, the frame's destination and source, a request's carriers and a
/// confirmation's result.
#[repr(C)]
pub struct MapRead {
    pub refusal: u32,
    pub kind: u32,
    pub receiver: u64,
    pub sender: u64,
    pub carriers: u32,
    pub result: u32,
}

/// A refusal or 0, and how many places were filled.
#[repr(C)]
pub struct Counted {
    pub refusal: u32,
    pub count: u32,
}

/// A refusal or 0, the station's address, its NID, and the first and last eight octets of its NMK.
#[repr(C)]
pub struct KeyNumbers {
    pub refusal: u32,
    pub station: u64,
    pub nid: u64,
    pub nmk_first: u64,
    pub nmk_last: u64,
}

pub type Words = [u64; WORDS];
pub type Sums = [u16; SUMS];
pub type Spreads = [u8; SPREAD];
pub type Values = [u8; GROUPS];
pub type CarWords = [u64; CAR_WORDS];

extern "C" {
    pub fn lahzavar_configure(
        words: &mut Words,
        sums: &mut Sums,
        spread: &mut Spreads,
        address: u64,
        modem: u64,
        nid: u64,
        nmk_first: u64,
        nmk_last: u64,
        exempt: u32,
        edition: u32,
        carriers: u32,
    ) -> Answered;
    pub fn lahzavar_frame(
        words: &mut Words,
        sums: &mut Sums,
        spread: &mut Spreads,
        octets: *const u8,
        length: usize,
        out: *mut u8,
        room: usize,
    ) -> Answered;
    pub fn lahzavar_tick(
        words: &mut Words,
        sums: &mut Sums,
        spread: &mut Spreads,
        reading: u32,
        out: *mut u8,
        room: usize,
    ) -> Answered;
    pub fn lahzavar_pilot(
        words: &mut Words,
        sums: &mut Sums,
        spread: &mut Spreads,
        pilot: u32,
        reading: u32,
    ) -> Answered;
    pub fn lahzavar_terminate(words: &mut Words, sums: &mut Sums, spread: &mut Spreads)
        -> Answered;
    pub fn lahzavar_link_up(words: &mut Words, sums: &mut Sums, spread: &mut Spreads) -> Answered;
    pub fn lahzavar_wipe(words: &mut Words, sums: &mut Sums, spread: &mut Spreads);
    pub fn lahzavar_query(
        words: &Words,
        sums: &Sums,
        spread: &Spreads,
        car: u64,
        least: &mut Values,
        greatest: &mut Values,
    ) -> Heard;
    pub fn lahzavar_inspect(words: &Words) -> Inspected;
    pub fn lahzavar_records_held(words: &Words) -> u32;
    pub fn lahzavar_version() -> u32;
    pub fn lahzavar_words() -> u32;
    pub fn lahzavar_sums() -> u32;
    pub fn lahzavar_spread() -> u32;
    pub fn lahzavar_least_output() -> u32;
    pub fn lahzavar_configure_car(words: &mut CarWords, address: u64, reference: u32) -> Answered;
    pub fn lahzavar_start_car(
        words: &mut CarWords,
        run: u64,
        random_first: u64,
        random_last: u64,
        reading: u32,
        out: *mut u8,
        room: usize,
    ) -> Answered;
    pub fn lahzavar_frame_car(
        words: &mut CarWords,
        octets: *const u8,
        length: usize,
        out: *mut u8,
        room: usize,
    ) -> Answered;
    pub fn lahzavar_tick_car(
        words: &mut CarWords,
        reading: u32,
        out: *mut u8,
        room: usize,
    ) -> Answered;
    pub fn lahzavar_link_up_car(words: &mut CarWords) -> Answered;
    pub fn lahzavar_terminate_car(words: &mut CarWords) -> Answered;
    pub fn lahzavar_key_of_car(words: &CarWords) -> KeyNumbers;
    pub fn lahzavar_state_of_car(words: &CarWords) -> u32;
    pub fn lahzavar_wipe_car(words: &mut CarWords);
    pub fn lahzavar_words_of_car() -> u32;
    pub fn lahzavar_least_output_of_car() -> u32;
    pub fn lahzavar_read_map(octets: *const u8, length: usize) -> MapRead;
    pub fn lahzavar_values_of_map(
        octets: *const u8,
        length: usize,
        values: *mut u8,
        room: usize,
    ) -> Counted;
    pub fn lahzavar_request_map(
        receiver: u64,
        sender: u64,
        values: *const u8,
        carriers: usize,
        out: *mut u8,
        room: usize,
    ) -> Counted;
    pub fn lahzavar_confirm_map(
        receiver: u64,
        sender: u64,
        success: u32,
        out: *mut u8,
        room: usize,
    ) -> Counted;
    pub fn lahzavar_reduce_map(
        values: *const u8,
        carriers: usize,
        levels: *const i16,
        level_count: usize,
        reductions: *mut u8,
        room: usize,
    ) -> Counted;
}
