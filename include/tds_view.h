/* The views of a play, for pages and tools that show one: a schedule's text in, a picture of its play out, or its
 * packets, or what is wrong with it (docs/VIEWING.md). It is libtds_view_c.a, a library of its own. What a caller
 * owes is said in tds.h; a call takes a stack of 1 MB, and memory. */
#ifndef TDS_VIEW_H
#define TDS_VIEW_H

#include <stddef.h>
#include <stdint.h>

#ifdef __cplusplus
extern "C" {
#endif

#define TDS_VIEW_PICTURE 1     /* a sequence picture as SVG, light or dark as the reader's page is */
#define TDS_VIEW_CHARACTERS 2  /* the same in characters, 100 a line */
#define TDS_VIEW_REPORT 3      /* the report, as tds_play writes it */
#define TDS_VIEW_BYTES 4       /* a line for each packet */
#define TDS_VIEW_SPELLED 5     /* the same, with what each packet means */
#define TDS_VIEW_CONNECTIONS 6 /* each event, and the connections after it */

#define TDS_VIEWED 0        /* the view was written */
#define TDS_NOT_VIEWED 1    /* the schedule isn't played: tds_explain says why; nothing was written */
#define TDS_VIEW_NO_ROOM 2  /* `count` bytes are wanted; nothing was written */
#define TDS_VIEW_NO_MEMORY 3 /* memory was refused; nothing was written */
#define TDS_NO_VIEW 4       /* there is no such view; nothing was written */

/* Plays a schedule over links in memory that never fail, and writes this view of its play to `out`. Of a picture
 * `first` and `last` say which events are drawn, from 1; 0 says nothing: from the first one, and 300 events. The
 * other views are of all events. The text ends in a line feed, which `count` counts, with no 0 behind it. */
uint8_t tds_view(uint8_t view, uint32_t first, uint32_t last, const uint8_t *schedule, size_t length,
                 uint8_t *out, size_t room, size_t *count);

#define TDS_EXPLAINED 0            /* nothing is wrong, and no event is refused */
#define TDS_EXPLAINED_UNPLAYED 1   /* it isn't played: what is wrong was written */
#define TDS_EXPLAIN_NO_ROOM 2      /* `count` bytes are wanted; nothing was written */
#define TDS_EXPLAIN_NO_MEMORY 3    /* memory was refused; nothing was written */
#define TDS_EXPLAINED_REFUSED 4    /* it is played; which events are refused, by which rule, was written */

/* Writes what is to be said of a schedule to `out`, a line for each thing: `schedule:LINE:COLUMN: ..`, both counted
 * from 1, a column for a character. */
uint8_t tds_explain(const uint8_t *schedule, size_t length, uint8_t *out, size_t room, size_t *count);

#ifdef __cplusplus
}
#endif

#endif
