/* The bytes that the examples exchange, as MS-TDS has them. */
#ifndef BYTES_H
#define BYTES_H
#include <stdint.h>

/* A batch `get x` under a full reset, with descriptor 0. */
static const uint8_t GET_X_AFTER_RESET[] = {
    0x01, 0x09, 0x00, 0x28, 0, 0, 1, 0, 0x16, 0, 0, 0, 0x12, 0, 0, 0, 2, 0, 0, 0, 0, 0, 0, 0, 0, 0,
    1, 0, 0, 0, 0x67, 0, 0x65, 0, 0x74, 0, 0x20, 0, 0x78, 0};
/* Its begin: isolation 0, descriptor 0. */
static const uint8_t BEGIN[] = {0x0E, 0x01, 0, 0x22, 0, 0, 1, 0, 0x16, 0, 0, 0, 0x12, 0, 0, 0, 2, 0,
                                0, 0, 0, 0, 0, 0, 0, 0, 1, 0, 0, 0, 5, 0, 0, 0};
/* The answer to it: a transaction with descriptor 1. */
static const uint8_t BEGUN[] = {4, 1, 0, 0x23, 0, 0, 1, 0, 0xE3, 0x0B, 0, 8, 8, 1, 0, 0, 0, 0,
                                0, 0, 0, 0, 0xFD, 0, 0, 0, 0, 0, 0, 0, 0, 0, 0, 0, 0};
static const uint8_t ATTENTION[] = {6, 1, 0, 8, 0, 0, 1, 0};
static const uint8_t ACKNOWLEDGED[] = {4, 1, 0, 0x15, 0, 0, 1, 0, 0xFD, 0x20, 0,
                                       0, 0, 0, 0, 0, 0, 0, 0, 0, 0};
/* The step of `get x`, where it is unset, and the end of an answer behind it. */
static const uint8_t NOTHING_SET[] = {4, 0, 0, 0x1A, 0, 0, 1, 0, 0x79, 0, 0, 0, 0,
                                      0xFD, 1, 0, 0, 0, 0, 0, 0, 0, 0, 0, 0, 0};
static const uint8_t ENDED[] = {4, 1, 0, 0x15, 0, 0, 2, 0, 0xFD, 0, 0, 0, 0, 0, 0, 0, 0, 0, 0, 0, 0};
/* The step of `say a`: an INFO and a DONE. */
static const uint8_t SAID[] = {4, 0, 0, 0x28, 0, 0, 1, 0, 0xAB, 0x10, 0, 0x50, 0xC3, 0,
                               0, 1, 0, 1, 0, 0x61, 0, 0, 0, 0, 0, 0, 0, 0xFD, 1, 0,
                               0, 0, 0, 0, 0, 0, 0, 0, 0, 0};
/* The step of `rows 5 2`. */
static const uint8_t ROWS[] = {4, 0, 0, 0x2C, 0, 0, 1, 0, 0x81, 1, 0, 0, 0, 0, 0,
                               0, 0, 0x38, 1, 0x6E, 0, 0xD1, 5, 0, 0, 0, 0xD1, 6, 0, 0,
                               0, 0xFD, 0x11, 0, 0, 0, 2, 0, 0, 0, 0, 0, 0, 0};
/* The step of a reset. */
static const uint8_t RESET_STEP[] = {4, 0, 0, 0x0E, 0, 0, 1, 0, 0xE3, 3, 0, 0x12, 0, 0};

#endif
