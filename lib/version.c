/* The version that the library was built as. */
#include "quoting.h"

const char *quoting_version(void) {
    return QUOTING_VERSION;
}
