/* The one function that the shared library has beside the proved calls. It is not proved, reads no buffer and judges
   nothing. */
#include "nutrameza.h"

uint32_t nutrameza_shared_version(void) { return NUTRAMEZA_VERSION; }
