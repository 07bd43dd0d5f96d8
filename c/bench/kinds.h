/* The kinds of lines and their names. The benchmarks do not take them from qolb.h, because the qolb.h of an older
 * library does not have them. */
#include <qolb.h>
#ifndef QOLB_KINDS
#define QOLB_KINDS 3
static inline const char *qolb_kind_name(uint32_t kind) {
    static const char *const names[QOLB_KINDS] = {"ring", "link", "ticket"};
    return kind < QOLB_KINDS ? names[kind] : "?";
}
#endif
