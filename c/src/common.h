/* Macros for all internal files of the library: for the visibility of symbols, for thread-local data, and for the
 * distance in bytes at which two objects are never in the same cache line. */
#ifndef QOLB_COMMON_H
#define QOLB_COMMON_H

#include <stdint.h> /* a header of the C library defines __GLIBC__ if this is glibc */

#define HIDDEN __attribute__((visibility("hidden")))

/* Marks thread-local data. The initial-exec model needs no call to find them. glibc reserves room for a few bytes of
 * such data in libraries that are opened at run time. Other C libraries may have no such room. */
#ifdef __GLIBC__
#define BY_THREAD _Thread_local __attribute__((tls_model("initial-exec")))
#else
#define BY_THREAD _Thread_local
#endif

/* The distance in bytes at which two objects share neither a cache line nor a pair of lines that is fetched together.
 */
enum { APART = 128 };

#endif
