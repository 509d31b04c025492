/* The player of schedules, for those who test their own code against it: a schedule's text in, its
 * report's text out (docs/SCHEDULES.md). It is libtds_play_c.a, a library of its own beside
 * libtds_c.a. What a caller owes is said in tds.h; a call takes a stack of 1 MB, and memory. */
#ifndef TDS_PLAY_H
#define TDS_PLAY_H

#include <stddef.h>
#include <stdint.h>

#ifdef __cplusplus
extern "C" {
#endif

#define TDS_PLAYED 0       /* the report's text was written */
#define TDS_NOT_PLAYED 1   /* the line that says why not was written, as `error: schedule 3` */
#define TDS_PLAY_NO_ROOM 2 /* `count` bytes are wanted; nothing was written */

/* Plays a schedule over links in memory that never fail, and writes its report to `out`, or the line
 * that says why not. Either text ends in a line feed, which `count` counts, with no 0 behind it. Where
 * memory is refused it answers TDS_NOT_PLAYED with the line `error: memory`. */
uint8_t tds_play(const uint8_t *schedule, size_t length, uint8_t *out, size_t room, size_t *count);

#ifdef __cplusplus
}
#endif

#endif
