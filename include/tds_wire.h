/* Where each token of an answer ends (MS-TDS 2.2.7), for every type of column of TDS 7.2 to 7.4, as
 * its bytes come in pieces of any size. C99 and C++. It is a part of the client's library (tds.h).
 *
 * A walk is a plain value, beside memory that its caller lends to each call: 8,706 bytes, which no
 * call copies. Both may be copied together; there is nothing to free. No call takes memory, and no
 * value of a row is kept.
 *
 *     static struct tds_wire_memory memory;
 *     struct tds_wire walk = {0};
 *     tds_wire_new(TDS_WIRE_MOST_COLUMNS, 0, 0, &walk, &memory);
 *     while (length > 0) {                   // the data of a packet of type 04, without its header
 *         struct tds_wire_token token = {0};
 *         size_t count;
 *         uint8_t answer = tds_wire_next(&walk, &memory, bytes, length, &count, &token);
 *         if (answer > TDS_WIRE_MORE) break; // refused, at walk.refused.at
 *         if (answer == TDS_WIRE_ENDED) ..   // token.start, token.length, what is told of it
 *         bytes += count, length -= count;   // at least one byte
 *     }
 *     tds_wire_is_between(&walk, &memory)    // behind the message's last packet: it ended well
 *     tds_wire_restart(&walk, &memory)       // before the next message
 *
 * tds_client_hear does all this for a client of tds.h, in one call for a packet's data.
 *
 * WHAT A CALLER OWES is what tds.h says: no pointer is null, and so on. A walk and its memory belong
 * together. Any bytes in them are read within their bounds: a walk that no call made is answered by
 * TDS_WIRE_NO_WALK, or is some other walk.
 */
#ifndef TDS_WIRE_H
#define TDS_WIRE_H

#include <stddef.h>
#include <stdint.h>

#ifdef __cplusplus
extern "C" {
#endif

#define TDS_WIRE_MOST_COLUMNS 4096

/* ---- What a call answers */

#define TDS_WIRE_ENDED 0    /* next: a token has ended. The others: done, or not between two tokens */
#define TDS_WIRE_MORE 1     /* next: all bytes are done with. is_between: it is */
#define TDS_WIRE_NO_WALK 20 /* the value is no walk's: nothing was done */

/* No answer has these bytes; `refused` of the walk says which byte, and where. Each later call
 * answers it again, up to a restart. */
#define TDS_WIRE_UNKNOWN_TOKEN 71
#define TDS_WIRE_NO_COLUMNS 72   /* a row, and no columns are known */
#define TDS_WIRE_UNKNOWN_TYPE 73
#define TDS_WIRE_MANY_COLUMNS 74 /* more than there is room for */

/* hear: the server broke the protocol at a message's end */
#define TDS_WIRE_CUT 75      /* it ended inside a token, and no attention was out */
#define TDS_WIRE_NO_RESET 76 /* the request asked for a reset, and its answer tells of none */

/* ---- The walk */

struct tds_wire_column { uint8_t form, bytes; };

/* Only the library reads and writes it. */
struct tds_wire_memory {
    struct tds_wire_column columns[TDS_WIRE_MOST_COLUMNS];
    uint8_t nulls[TDS_WIRE_MOST_COLUMNS / 8];
    uint16_t count;
};

struct tds_wire_due { uint64_t left; uint32_t value; uint16_t change; uint8_t due, bytes, field, next, fault; };
struct tds_wire_inside { uint16_t column; uint8_t inside; struct tds_wire_column base; };

/* A byte that was refused, and its place in the message, where fault isn't 0: 1 to 4 as above. */
struct tds_wire_refusal { uint64_t at; uint8_t fault, byte; };

/* Only the library writes it. `refused`, `start` and `passed` may be read: where the token starts
 * that it is in, and how many bytes of that have come. */
struct tds_wire {
    struct tds_wire_due due;
    struct tds_wire_refusal refused;
    uint64_t start, passed;
    uint16_t most, entries;
    struct tds_wire_inside inside;
    struct tds_wire_column shape;
    uint8_t kind, parts, ciphered, encryption, ranks;
    uint8_t head[24], head_count;
};

/* ---- A token that ended */

#define TDS_WIRE_TELLS_NOTHING 0
#define TDS_WIRE_TELLS_DONE 1          /* status, command, value: the count of rows */
#define TDS_WIRE_TELLS_TRANSACTION 2   /* ENVCHANGE 8 to 12, 17: value and old_value, descriptors */
#define TDS_WIRE_TELLS_RESET 3         /* ENVCHANGE 18 */
#define TDS_WIRE_TELLS_PACKET_SIZE 4   /* ENVCHANGE 4: size */
#define TDS_WIRE_TELLS_VALUES 5        /* ENVCHANGE 1, 2, 7, 15, 20: text the new one, others the old */
#define TDS_WIRE_TELLS_OTHER_CHANGE 6  /* any other ENVCHANGE */
#define TDS_WIRE_TELLS_MESSAGE 7       /* ERROR, INFO: number, state, severity, text; others: names, line */
#define TDS_WIRE_TELLS_RETURN_STATUS 8 /* number */
#define TDS_WIRE_TELLS_SESSION_STATE 9 /* size: its number, recoverable, text: the states */
#define TDS_WIRE_TELLS_UNCLEAR 10      /* one of these whose fields don't fit its length or type */

/* Bytes of the message, from its first byte on. They may have come in pieces that are gone. */
struct tds_wire_place { uint64_t start, length; };

/* A field that its kind doesn't have is 0. */
struct tds_wire_token {
    uint64_t start, length; /* of the token, its first byte counted */
    uint64_t value, old_value;
    struct tds_wire_place text, others;
    int32_t number;
    uint32_t size;
    uint16_t status, command;
    uint8_t kind;   /* its first byte */
    uint8_t told;   /* one of the above */
    uint8_t change; /* the type of an ENVCHANGE */
    uint8_t state, severity, recoverable;
};

/* ---- The calls */

/* A walk before the first token of an answer, with room for so many columns (any number beyond 4,096
 * is as 4,096). The others are not 0 where the FEATUREEXTACK of the login acknowledged column
 * encryption, and data classification of version 2. 0. */
uint8_t tds_wire_new(uint16_t most, uint8_t encryption, uint8_t ranks, struct tds_wire *walk,
                     struct tds_wire_memory *memory);

/* Takes bytes of an answer's data up to the end of one token: at least one byte, where there is one.
 * `count` is how many; where bytes are refused, 0. `token` is written where a token has ended. */
uint8_t tds_wire_next(struct tds_wire *walk, struct tds_wire_memory *memory, const uint8_t *bytes,
                      size_t length, size_t *count, struct tds_wire_token *token);

/* Whether a message may end here: 1 between two tokens, 0 inside one or where bytes were refused. */
uint8_t tds_wire_is_between(const struct tds_wire *walk, const struct tds_wire_memory *memory);

/* Begins anew, before the first token of a message, with no columns, whatever was before. 0. */
uint8_t tds_wire_restart(struct tds_wire *walk, struct tds_wire_memory *memory);

/* ---- Columns, and where the values of a row stand */

#define TDS_WIRE_SAME_COLUMNS 2 /* columns: it describes none, and those that are known stay */

/* A column, as a COLMETADATA (MS-TDS 2.2.7.4) describes it. */
struct tds_column {
    struct tds_wire_place name; /* in the token, from its first byte on: units of two bytes */
    uint32_t size;              /* the most bytes that a value has; 65,535 in parts, 0 where nothing says it */
    uint32_t user_type;
    uint16_t flags;
    uint8_t kind;                 /* the type's byte */
    uint8_t precision, scale;     /* 0 where the type has none */
    uint8_t collation[5];         /* zeros where the type has none */
    struct tds_wire_column shape; /* how values are spelled: form 5 is in parts */
};

/* Where a value's own bytes stand in a row's token, from its first byte on. Of a value in parts these
 * are all its parts, each behind its count of four bytes, without the empty one behind them. */
struct tds_place {
    uint64_t start, length;
    uint8_t null; /* 1 where the value is null, else 0 */
};

/* The columns that the COLMETADATA describes which the bytes begin with: `count` of them, to the front
 * of `columns`, out of `taken` bytes. `encryption` isn't 0 where the login acknowledged column
 * encryption.
 *
 * TDS_WIRE_ENDED (0), TDS_WIRE_SAME_COLUMNS (2); TDS_WIRE_MORE (1): the token isn't whole. 71: another
 * token; 73: TDS_WIRE_UNKNOWN_TYPE; 74: there is less room than columns. At all but 0 `count` is 0, at
 * all but 0 and 2 `taken` is 0, and any columns may be written. */
uint8_t tds_columns(const uint8_t *bytes, size_t length, uint8_t encryption, struct tds_column *columns,
                    size_t room, size_t *count, size_t *taken);

/* Where each value stands in the row that bytes begin with, a ROW or an NBCROW of these columns:
 * `count` places, to the front of `places`; `taken` is how many bytes the row has.
 *
 * TDS_WIRE_ENDED (0); TDS_WIRE_MORE (1): the row isn't whole. 71: another token; 72: no columns; 74:
 * there is less room than columns. At all but 0 `taken` is 0, and any of those places may be written. */
uint8_t tds_row_places(const struct tds_column *columns, size_t count, const uint8_t *bytes, size_t length,
                       struct tds_place *places, size_t room, size_t *taken);

/* The same of the rows that bytes begin with, ROWs and NBCROWs of these columns, one behind the other: all that a
 * packet has in one call. Of the row i the places are `count` from places[i * count] on, from the first of these
 * bytes on; `rows` is how many rows these are, `taken` how many bytes they have.
 *
 * TDS_WIRE_ENDED (0): no byte is left. Else what stands behind them: TDS_WIRE_MORE (1): a row that isn't whole; 71:
 * another token; 72: a row, and no columns; 74: there are fewer places left than columns. Behind the places of
 * `rows` rows those of one row more may be written. */
uint8_t tds_places_of_rows(const struct tds_column *columns, size_t count, const uint8_t *bytes, size_t length,
                           struct tds_place *places, size_t room, size_t *rows, size_t *taken);

/* ---- A row that isn't whole yet, and a value in parts as it comes */

/* Bytes of a row are read from the value on that wasn't whole; one in parts (form 5) needn't ever be kept:
 *
 *     answer = tds_row_values(columns, count, first, nulls, bits, bytes, length, places, count, &next, &taken);
 *     if (answer == TDS_WIRE_MORE && columns[next].shape.form == 5) {
 *         struct tds_parts parts = {0};                // the bytes from `taken` on, and those that come behind them
 *         do {
 *             answer = tds_parts_next(&parts, bytes, length, &start, &own, &taken);
 *             ..                                       // `own` bytes of the value, from bytes + start on
 *             bytes += taken, length -= taken;
 *         } while (answer == TDS_WIRE_MORE);           // where no byte is left: with those that come
 *     }                                                // and then tds_row_values from next + 1 on
 */

/* Where a value in parts is that comes in pieces; zeros before its first byte. Only the library writes it. */
struct tds_parts {
    uint32_t left;
    uint8_t stage, seen, first, second, third;
};

/* Where each value stands that is whole, in bytes of a row that begin with the value of the column `first`:
 * places[first] and so on, from the first of these bytes on. A ROW's values begin behind its first byte, an
 * NBCROW's behind its null bitmap too, which is `nulls` then, (count + 7) / 8 bytes; else `bits` is 0.
 *
 * TDS_WIRE_ENDED (0): all values up to the row's end are whole; TDS_WIRE_MORE (1): that of the column `next` isn't,
 * and it begins at `taken`. 72: there are fewer columns; 74: fewer places than columns, or bits. Then nothing is
 * written but `next` and `taken`, which are 0. */
uint8_t tds_row_values(const struct tds_column *columns, size_t count, size_t first, const uint8_t *nulls, size_t bits,
                       const uint8_t *bytes, size_t length, struct tds_place *places, size_t room, size_t *next,
                       size_t *taken);

#define TDS_PARTS_NULL 2 /* next: it is over, and null */

/* Takes what comes next of a value in parts, from its first byte on, up to the end of a part: `count` bytes of its
 * own stand at `start`, and `taken` bytes are done with. Call it again with the bytes behind them.
 *
 * TDS_WIRE_ENDED (0): it is over, and no byte behind `taken` is its; TDS_PARTS_NULL (2): the same, and it is null;
 * TDS_WIRE_MORE (1): there is more to come. Where `count` is 0 then, all bytes are done with. */
uint8_t tds_parts_next(struct tds_parts *parts, const uint8_t *bytes, size_t length, size_t *start, size_t *count,
                       size_t *taken);

/* ---- A client and a walk in one call */

struct tds_client; /* of tds.h, as are the names TDS_.. below */

/* Takes the data of a packet of any server's answer (type 04, behind its header), or those of them that
 * are left: of each token that ends there the client hears what it says, as by tds_client_heard_change,
 * _done or _other, and those that the caller who asked is told of are written to the front of `tokens`,
 * `count` of them. `taken` bytes are done with. Call it once for each packet, and again with the bytes
 * behind them while it answers TDS_TELL. `ends` is not 0 where the packet's status has bit 1.
 *
 * TDS_TELL (10): the room is full, and bytes are left. Without room (0, and then any pointer that is not
 * null) those tokens alone pass that nobody is told of. TDS_OK (0): all bytes are done with, and the
 * message goes on. Where it ends with them: TDS_FINISHED (3), TDS_ACKNOWLEDGED (4), or in cancelling
 * TDS_MORE (1), as by tds_client_message_ended; the walk begins anew, as by tds_wire_restart. Behind a
 * cancel a message may end inside a token.
 *
 * TDS_NO_CLIENT (20): the client or the walk is none, and nothing was done. 61 to 69, 71 to 76: the client
 * is broken, by 71 to 76 as one whose connection is lost. The client has heard the tokens before, and
 * those that are told stand in `tokens`; `taken` are the bytes of all tokens before. At 71 to 74 `refused`
 * of the walk says which byte.
 *
 * A client and its walk belong together, from the first byte of an answer to its end; between two answers
 * the client may be cancelled, asked and sent as ever. */
uint8_t tds_client_hear(struct tds_client *client, struct tds_wire *walk, struct tds_wire_memory *memory,
                        const uint8_t *bytes, size_t length, uint8_t ends, size_t *taken,
                        struct tds_wire_token *tokens, size_t room, size_t *count);

#ifdef __cplusplus
}
#endif

#endif
