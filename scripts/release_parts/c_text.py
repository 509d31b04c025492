"""What stands in a printed file before its functions: memory, and the helpers that its instructions want."""

import re

MEMORY = """#include <stddef.h>
#include <stdint.h>
#include <stdlib.h>
#include <string.h>

#if defined(__BYTE_ORDER__) && __BYTE_ORDER__ == __ORDER_BIG_ENDIAN__
#define ONE_BIG_ENDIAN 1
#else
#define ONE_BIG_ENDIAN 0
#endif

#if defined(__GNUC__)
#define ONE_INLINE static inline __attribute__((always_inline))
#else
#define ONE_INLINE static inline
#endif

/* Memory is the caller's own. A number lies there with the low byte first, an address as a number of 8 bytes. */
#if UINTPTR_MAX == UINT64_MAX
typedef unsigned char *one_pointer;
typedef ptrdiff_t one_distance;
#define ONE_POINTER(x) ((unsigned char *)(uintptr_t)(x))
#define ONE_AT(p) (p)
#define ONE_NUMBER(p) ((uint64_t)(uintptr_t)(p))
#else /* an address is a number of 8 bytes too: what lies in memory may be either */
typedef uint64_t one_pointer;
typedef int64_t one_distance;
#define ONE_POINTER(x) ((uint64_t)(x))
#define ONE_AT(p) ((unsigned char *)(uintptr_t)(p))
#define ONE_NUMBER(p) (p)
#endif
#if defined(__GNUC__) /* not each file has numbers of each width */
#define ONE_PERHAPS static inline __attribute__((unused))
#else
#define ONE_PERHAPS static inline
#endif
#if !ONE_BIG_ENDIAN
#define ONE_MEMORY(n) \\
    ONE_PERHAPS uint##n##_t one_read##n(one_pointer p) { uint##n##_t v; memcpy(&v, ONE_AT(p), sizeof v); return v; } \\
    ONE_PERHAPS void one_write##n(one_pointer p, uint##n##_t v) { memcpy(ONE_AT(p), &v, sizeof v); }
#else
#define ONE_MEMORY(n) \\
    ONE_PERHAPS uint##n##_t one_read##n(one_pointer p) { \\
        uint64_t v = 0; \\
        for (int k = n / 8; k-- > 0;) v = v << 8 | ONE_AT(p)[k]; \\
        return (uint##n##_t)v; \\
    } \\
    ONE_PERHAPS void one_write##n(one_pointer p, uint##n##_t v) { \\
        for (int k = 0; k < n / 8; k++) ONE_AT(p)[k] = (unsigned char)((uint64_t)v >> 8 * k); \\
    }
#endif
ONE_MEMORY(8)
ONE_MEMORY(16)
ONE_MEMORY(32)
ONE_MEMORY(64)
"""

# Helpers by name. One that nothing calls isn't printed; one that another calls stands above it.
HELPERS = {
    "one_double": "static inline double one_double(uint64_t x) { double d; memcpy(&d, &x, 8); return d; }",
    "one_bits": "static inline uint64_t one_bits(double d) { uint64_t x; memcpy(&x, &d, 8); return x; }",
    "one_read_double": "static inline double one_read_double(one_pointer p) { return one_double(one_read64(p)); }",
    "one_write_double": "static inline void one_write_double(one_pointer p, double v) { one_write64(p, one_bits(v)); }",
    "one_read_pointer": "static inline one_pointer one_read_pointer(one_pointer p) { return ONE_POINTER(one_read64(p)); }",
    "one_write_pointer":
        "static inline void one_write_pointer(one_pointer p, one_pointer v) { one_write64(p, ONE_NUMBER(v)); }",
    "one_read_odd": """/* A number of 3, 5, 6 or 7 bytes. */
static inline uint64_t one_read_odd(one_pointer p, int bytes) {
    uint64_t v = 0;
    while (bytes-- > 0) v = v << 8 | ONE_AT(p)[bytes];
    return v;
}""",
    "one_write_odd": """static inline void one_write_odd(one_pointer p, uint64_t v, int bytes) {
    for (int k = 0; k < bytes; k++) ONE_AT(p)[k] = (unsigned char)(v >> 8 * k);
}""",
    "one_read128": """typedef unsigned __int128 one_wide;
typedef __int128 one_signed_wide;
static inline one_wide one_read128(one_pointer p) { return (one_wide)one_read64(p + 8) << 64 | one_read64(p); }""",
    "one_write128": """static inline void one_write128(one_pointer p, one_wide v) {
    one_write64(p, (uint64_t)v);
    one_write64(p + 8, (uint64_t)(v >> 64));
}""",
    "one_copy": """static inline void one_copy(one_pointer to, one_pointer from, size_t n) {
    if (n) memcpy(ONE_AT(to), ONE_AT(from), n);
}""",
    "one_move": """static inline void one_move(one_pointer to, one_pointer from, size_t n) {
    if (n) memmove(ONE_AT(to), ONE_AT(from), n);
}""",
    "one_never": """#if defined(__GNUC__)
#define one_never() __builtin_unreachable()
#else
#define one_never() abort()
#endif""",
    "one_ones": """static inline unsigned one_ones(uint64_t x) {
    unsigned count = 0;
    for (; x; x &= x - 1) count++;
    return count;
}""",
    "one_leading": """static inline unsigned one_leading(uint64_t x, unsigned n) {
    for (; x; x >>= 1) n--;
    return n;
}""",
    "one_trailing": """static inline unsigned one_trailing(uint64_t x, unsigned n) {
    unsigned count = 0;
    while (count < n && !(x >> count & 1)) count++;
    return count;
}""",
    "one_swap16": "static inline uint16_t one_swap16(uint16_t x) { return (uint16_t)(x << 8 | x >> 8); }",
    "one_swap32": """static inline uint32_t one_swap32(uint32_t x) {
    return x << 24 | (x & 0xff00) << 8 | (x >> 8 & 0xff00) | x >> 24;
}""",
    "one_swap64": """static inline uint64_t one_swap64(uint64_t x) {
    uint64_t v = 0;
    for (int k = 0; k < 8; k++, x >>= 8) v = v << 8 | (x & 0xff);
    return v;
}""",
}

# The heap of what takes memory, over the C library's.
HEAP = {
    "rattle_alloc": """/* Of no bytes a block is asked for all the same, so that NULL says that there is no memory. */
static {got} rattle_alloc(uint64_t size, uint64_t align) {{
    void *at = size > PTRDIFF_MAX ? NULL : malloc((size_t)(size ? size : align));
    {got} r;
    r.f0 = at != NULL;
    r.f1 = {number};
    return r;
}}""",
    "rattle_realloc": """static {got} rattle_realloc(one_pointer old, uint64_t kept, uint64_t size, uint64_t align) {{
    void *at = size > PTRDIFF_MAX ? NULL : realloc(ONE_AT(old), (size_t)(size ? size : align));
    {got} r;
    (void)kept;
    r.f0 = at != NULL;
    r.f1 = {number};
    return r;
}}""",
    "rattle_dealloc": "static void rattle_dealloc(one_pointer at) { free(ONE_AT(at)); }",
}


def calls(text, name):
    return re.search(rf"\b{name}\b", text)


def helpers_of(text, own):
    """The helpers that this text, or a helper that is printed, names; `own` are further ones by name, in order."""
    every = {**HELPERS, **own}
    kept, below = [], text
    while True:
        found = [it for it in every if it not in kept and (calls(below, it) or it == "one_read128" and calls(below, "one_wide"))]
        if not found:
            return [every[it] for it in every if it in kept]
        kept += found
        below += "\n".join(every[it] for it in found)
