/* Prints each refusal's number and sentence, as bindings/rust/examples/refusals.rs prints the Rust wrapper's. */
#include "lahzavar.h"

#include <stdio.h>

int main(void)
{
    unsigned number;
    for (number = 0; number <= LAHZAVAR_LAST_REFUSAL + 2; number++) {
        printf("%u %s\n", number, lahzavar_refusal_text(number));
    }
    return 0;
}
