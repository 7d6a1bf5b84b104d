/* What a call is lent, as valgrind is told of it. Compiled with WATCHED, and run under valgrind, the bytes of a buffer that are not lent may be neither
 * read nor written to while the call runs, and what the call is to write holds nothing yet. Compiled without, these do nothing.
 *
 * Valgrind watches the library's own code too, which the compiler's sanitizers do not: they see only what is compiled with them. */
#ifndef WATCH_H
#define WATCH_H

#include <stddef.h>

#ifdef WATCHED

#include <valgrind/memcheck.h>

/* Of a buffer of `size` bytes only the first `lent` are lent. Where WATCHED is above 1, which is for a trial of the watch, it is fewer than that. */
static inline void watch_lend(const void *buffer, size_t lent, size_t size)
{
    const size_t fewer = WATCHED - 1, kept = lent > fewer ? lent - fewer : 0;
    (void)VALGRIND_MAKE_MEM_NOACCESS((const char *)buffer + kept, size - kept);
}

static inline void watch_unwritten(const void *bytes, size_t n)
{
    (void)VALGRIND_MAKE_MEM_UNDEFINED(bytes, n);
}

/* The call has ended: the first `written` bytes must have been written, and the buffer is the caller's again. */
static inline void watch_take_back(const void *buffer, size_t written, size_t size)
{
    (void)VALGRIND_CHECK_MEM_IS_DEFINED(buffer, written);
    (void)VALGRIND_MAKE_MEM_DEFINED(buffer, size);
}

#else

static inline void watch_lend(const void *buffer, size_t lent, size_t size)
{
    (void)buffer, (void)lent, (void)size;
}

static inline void watch_unwritten(const void *bytes, size_t n)
{
    (void)bytes, (void)n;
}

static inline void watch_take_back(const void *buffer, size_t written, size_t size)
{
    (void)buffer, (void)written, (void)size;
}

#endif

#endif
