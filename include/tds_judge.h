/* What both ends of a connection do wrong, for those who recorded its bytes: a test suite, or a proxy
 * that keeps what it forwards. One call judges one connection, from its first piece to its last; a
 * connection that was recorded from its middle on is taken up at the next message of each side. What
 * each finding says stands in docs/JUDGING.md. C99 and C++. It is libtds_judge_c.a, a library of its
 * own. What a caller owes is said in tds.h; a call takes memory of some 10 KB and what its findings
 * need, and gives it back.
 *
 *     struct tds_judge_limits limits = {5000000, 4096, 0, 0};
 *     struct tds_judge_piece pieces[] = {{time, sizeof request, TDS_JUDGE_TO_SERVER}, ..};
 *     struct tds_judge_finding findings[64];
 *     size_t count;
 *     tds_judge(&limits, pieces, 2, bytes, length, findings, 64, &count)
 */
#ifndef TDS_JUDGE_H
#define TDS_JUDGE_H

#include <stddef.h>
#include <stdint.h>

#ifdef __cplusplus
extern "C" {
#endif

#define TDS_JUDGE_MOST_COLUMNS 4096

/* ---- What a call answers */

#define TDS_JUDGED 0          /* `count` findings were written */
#define TDS_JUDGE_NO_ROOM 1   /* there are `count` of them; nothing was written */
#define TDS_JUDGE_MISFIT 2    /* more than 4,096 columns, or the pieces have more bytes than are there */
#define TDS_JUDGE_NO_MEMORY 3

/* ---- A connection */

struct tds_judge_limits {
    uint64_t idle;      /* how long a transaction may be idle, in microseconds; 0: as long as it likes */
    uint16_t columns;   /* the most columns of a result */
    uint8_t encryption; /* whether the login acknowledged column encryption, */
    uint8_t ranks;      /* and data classification of version 2 */
};

#define TDS_JUDGE_TO_SERVER 0
#define TDS_JUDGE_TO_CLIENT 1
#define TDS_JUDGE_BORROWED 2 /* a piece's `what`: the connection is lent to somebody else; no bytes */
#define TDS_JUDGE_CLOSED 3   /* it is closed, or reset; no bytes. Any other number is as this one */

/* Bytes of one direction, of any size, in the order in which they were seen: each piece has the bytes
 * behind those of the piece before. */
struct tds_judge_piece {
    uint64_t time; /* microseconds */
    size_t length;
    uint8_t what;
};

/* ---- Findings */

#define TDS_JUDGE_BREACH 0 /* MS-TDS forbids it */
#define TDS_JUDGE_RISK 1   /* it is lawful, and loses work or an answer */
#define TDS_JUDGE_NOTE 2

struct tds_judge_finding {
    uint64_t offset;   /* the byte of its direction, from 0 */
    uint64_t time;     /* of its piece */
    uint64_t value;    /* what goes with it, or 0 */
    uint8_t number;    /* 1 to 45 */
    uint8_t level;     /* a breach, a risk, a note */
    uint8_t direction; /* to the server, to the client */
};

/* Judges one connection. Findings come in the order in which they were found. */
uint8_t tds_judge(const struct tds_judge_limits *limits, const struct tds_judge_piece *pieces,
                  size_t piece_count, const uint8_t *bytes, size_t length,
                  struct tds_judge_finding *findings, size_t room, size_t *count);

#ifdef __cplusplus
}
#endif

#endif
