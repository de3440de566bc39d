/* What a refusal's number means, as a function that other languages can call. `make` adds it to the installed archive and .so; it is not proved. */
#include "softlode.h"

const char *softlode_text(uint32_t refusal) {
    return softlode_meaning(refusal);
}
