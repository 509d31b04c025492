/* The version of Mouktelf: of this header, and of the libraries. */
#ifndef MOUKTELF_VERSION_H
#define MOUKTELF_VERSION_H

#include <stdint.h>

#ifdef __cplusplus
extern "C" {
#endif

#define MOUKTELF_VERSION "0.1.0"
#define MOUKTELF_VERSION_NUMBER 100 /* 10,000 for each major version, 100 for each minor one, the patch */

/* Whether the library that is linked is this header's: ask before the first call, and go on where it
 * holds. Before 1.0 each minor version may lay out a struct anew, give an answer another number or drop
 * a call, and nothing else finds a header of one version with a library of another. A version that
 * differs in its patch alone changes none of these. */
#define MOUKTELF_FITS() (mouktelf_version() / 100 == MOUKTELF_VERSION_NUMBER / 100)

/* What each call of a release answers, in its libraries and its C files, where a pointer is null and a struct is
 * wanted or its length isn't 0, or where a length is over PTRDIFF_MAX bytes: nothing was done then. Null with a
 * length of 0 is taken. */
#define MOUKTELF_MISFIT 27

/* The number of the library that is linked. */
uint32_t mouktelf_version(void);

/* The same of the player's part of it. */
uint32_t mouktelf_play_version(void);

#ifdef __cplusplus
}
#endif

#endif
