//! Prints each refusal's number and sentence, as `tests/c/refusal_texts.c` prints the C header's.

use lahzavar::Refusal;

fn main() {
    for number in 0..=26 {
        println!("{number} {}", Refusal::try_from(number).map_or("accepted", Refusal::text));
    }
}
