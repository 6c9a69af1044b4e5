/* The version of the library, for programs that load it. */
#include "sas.h"

const char *sas_version(void) {
    return SAS_VERSION;
}
