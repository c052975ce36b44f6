/* A caller as version 2 of the header made it, with the record by value: it asks for that version's function, and so must not link. */
#include <stdint.h>

uint32_t cuddrewyn_abi_2(void);

int main(void) { return cuddrewyn_abi_2() == 2; }
