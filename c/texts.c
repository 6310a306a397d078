/* The words of a status, and which library this is. Nothing here is proved. */
#include "curspan.h"

#ifndef CURSPAN_COMMIT
#define CURSPAN_COMMIT "unknown"
#endif

const char *curspan_text(uint32_t status) {
    static const char *const words[] = {
        "done",
#include "written_refusals.h"
        "there is no memory for the bytes of a doupdate",
        "the screen is closed",
    };
    return status < sizeof words / sizeof words[0] ? words[status] : "there is no such status";
}

const char *curspan_version(void) { return CURSPAN_VERSION; }
const char *curspan_commit(void) { return CURSPAN_COMMIT; }
