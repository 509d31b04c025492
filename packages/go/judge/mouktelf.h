/* Mouktelf 0.1.0: the client's end of a connection that speaks the Tabular Data Stream (MS-TDS), a table of
 * connections that callers share, a judge of recorded ones, and the player of schedules. C99 and C++. It is these headers, one behind the other:
 * mouktelf_version.h, tds.h, tds_wire.h, tds_service.h, tds_judge.h, tds_play.h.
 * https://learn.microsoft.com/openspecs/windows_protocols/ms-tds has the protocol. No licence is chosen for it yet. */
#ifndef MOUKTELF_H
#define MOUKTELF_H

#include <stddef.h>
#include <stdint.h>

#ifdef __cplusplus
extern "C" {
#endif

/* The version of Mouktelf: of this header, and of the libraries. */

#define MOUKTELF_VERSION "0.1.0"
#define MOUKTELF_VERSION_NUMBER 100 /* 10,000 for each major version, 100 for each minor one, the patch */

/* Whether the library that is linked is this header's: ask before the first call, and go on where it
 * holds. Before 1.0 each minor version may lay out a struct anew, give an answer another number or drop
 * a call, and nothing else finds a header of one version with a library of another. A version that
 * differs in its patch alone changes none of these. */
#define MOUKTELF_FITS() (mouktelf_version() / 100 == MOUKTELF_VERSION_NUMBER / 100)

/* What each call of a release answers, in its libraries and its C files, where a pointer is null and a struct is
 * wanted or its length isn't 0, or where a length is over PTRDIFF_MAX bytes: nothing was done then. Null with a
 * length of 0 is taken. */
#define MOUKTELF_MISFIT 27

/* The number of the library that is linked. */
uint32_t mouktelf_version(void);

/* The same of the player's part of it. */
uint32_t mouktelf_play_version(void);

/* The client's end of a connection that speaks the Tabular Data Stream (MS-TDS): packets, the
 * client, and the tokens of an answer. C99 and C++. The library does no input or output and starts
 * no thread; each call is proved to be the client's call on the value that is handed to it.
 *
 * WHAT A CALLER OWES. The proofs hold where each call is made so; nothing checks it but what a release
 * looks at before the call (MOUKTELF_MISFIT): null pointers, and lengths that nothing can have.
 *  - No pointer is null, also where its length is 0: hand over the address of any object then. The
 *    library of this crate alone looks for none, so nothing is promised of it. With length or room 0 it
 *    reads and writes nothing there, as it is built now; a null client ends the process.
 *  - A pointer to a struct has one; a pointer with a length has that many elements, which the call
 *    may read, and write where the pointer isn't const. No length is over PTRDIFF_MAX bytes.
 *    What a call only writes (a count, a packet, a token, a message, bytes that go out, a new
 *    client) need not be set before, but has to be memory that was written once:
 *    `struct tds_client client = {0};`, in C++ `{}`.
 *  - What a call may write overlaps nothing else that is handed to the same call.
 *  - No other thread touches what is handed to a call while it runs. Two calls on different values
 *    may run at the same time. A value may go from thread to thread.
 *  - The bytes that calls on a client write go out in the order of the calls. An attention that
 *    overtakes packets that were handed out before it is acknowledged, and the next request is told
 *    what they brought: no call can see that. So one lock holds call and write, or one queue a
 *    connection has what goes out.
 *  - There is stack for the call (64 KB will do), and it isn't made from a signal handler or from
 *    the child of a fork in a process with threads.
 *  - libtds_c.a takes no memory, and needs of the C library memcpy and memmove alone. The libraries
 *    of the player, the views and the judge take memory: behind each of them on the linker's line
 *    stands liblibc_c.a of the toolchain, which what a release installs has inside. malloc, realloc and
 *    free are one allocator, and align a block to each power of two up to 16 that divides its size.
 *  - `message` of tds_client_send is what the start of that request wrote, all of it; what waits in
 *    `kept` for tds_client_put and tds_client_finish is what the call before left there.
 *  - Numbers have this machine's byte order; the library is for 64-bit machines with the low byte
 *    first.
 *
 * WHAT A CALL ANSWERS. One number, of those below. From 20 on the call was not done: the client,
 * the cursor and the buffers are as they were, and a count is 0, or where room is wanted (21) how
 * much. The exceptions are the client's faults (61 to 69), which break the client; the tokens'
 * (51 to 57), which put the cursor behind the data, with the tokens before them read; and
 * tds_packets_read, which has read the packets before what it answers. No call takes memory.
 *
 *   0                 done
 *   1 to 11           done, and more is said: what is still to come, or that nothing is
 *   20 to 26          what was handed over is wrong, or not enough: a client, room, a range, bytes
 *   31 to 33          the client refuses the call as it stands now
 *   41 to 46          a packet's header is wrong; nothing behind it can be read
 *   51 to 57          a packet's data spell no token
 *   61 to 69          the peer broke the protocol, and the client is broken
 *
 * TEXTS are UTF-16 with the low byte first. One that is handed over is an array of uint16_t (or of
 * char16_t, which is as wide; in C++ cast the pointer), aligned as its type, without a 0 behind it:
 * the length counts units, and a character outside of the first 65,536 has two. Any units are
 * taken, a lone half of a pair too. One that comes lies in the packet's data, at any address: copy
 * it out by memcpy, or read it byte by byte; a pointer of uint16_t into the data may be misaligned.
 */

/* ---- What a call answers */

#define TDS_OK 0           /* done */
#define TDS_MORE 1         /* send: there are more packets. put: one is full. take: the answer goes on */
#define TDS_LAST 2         /* send: all of the request is out */
#define TDS_FINISHED 3     /* take: the answer has ended, and the client is idle */
#define TDS_ACKNOWLEDGED 4 /* take: the attention is acknowledged, and the client is idle */
#define TDS_NOTHING 5      /* cancel: nothing is underway */
#define TDS_ALREADY 6      /* cancel: an attention is out already */
#define TDS_UNSENT 7       /* cancel: no packet was out, and the client is idle */
#define TDS_ASKED 8        /* cancel: an attention was written: send it */
#define TDS_END 9          /* next token: there are no more in these data */
#define TDS_TELL 10        /* heard: the caller that asked is told of this token */
#define TDS_DROP 11        /* heard: nobody is told of it, since the request was cancelled */

#define TDS_NO_CLIENT 20    /* the value is no client's */
#define TDS_NO_ROOM 21      /* the buffer that is written to is too short: `count` is wanted */
#define TDS_NO_MEMORY 22    /* put: 2^63 packets and bytes of one message would be out and wait */
#define TDS_OUT_OF_RANGE 23 /* a packet size, direction, reset, text, level, message or token is none */
#define TDS_WANTS_BYTES 24  /* less than a packet is there */
#define TDS_NO_PACKET 25    /* take: bytes stand behind the packet */
#define TDS_NO_PLACE 26     /* the cursor is no place in these data */

/* The client refuses the call. */
#define TDS_NOT_IDLE 31    /* a request is underway */
#define TDS_NOT_SENDING 32 /* no request is going out */
#define TDS_IS_BROKEN 33   /* the client is broken */

/* A packet's header is refused (MS-TDS 2.2.3.1): nothing behind it can be read. */
#define TDS_PACKET_UNKNOWN_TYPE 41
#define TDS_PACKET_OTHER_DIRECTION 42
#define TDS_PACKET_SHORT_LENGTH 43
#define TDS_PACKET_LONG_LENGTH 44
#define TDS_PACKET_WRONG_STATUS 45
#define TDS_PACKET_EMPTY_PART 46

/* The data spell no token (MS-TDS 2.2.7). */
#define TDS_TOKEN_UNKNOWN 51
#define TDS_TOKEN_CUT 52
#define TDS_TOKEN_WRONG_LENGTH 53
#define TDS_TOKEN_WRONG_ENV_CHANGE 54
#define TDS_TOKEN_WRONG_STATUS 55
#define TDS_TOKEN_NO_COLUMNS 56
#define TDS_TOKEN_WRONG_COLUMN 57

/* The peer broke the protocol, and the client is broken: close the connection. */
#define TDS_CLIENT_ANSWER_IN_IDLE 61
#define TDS_CLIENT_ANSWER_IN_SENDING 62
#define TDS_CLIENT_UNASKED_ACKNOWLEDGEMENT 63
#define TDS_CLIENT_WRONG_ENV_CHANGE 64
#define TDS_CLIENT_UNASKED_RESET 65 /* in the strict profile, as tds_client_take reads it */
#define TDS_CLIENT_NO_FINAL_DONE 66
#define TDS_CLIENT_BEHIND_FINAL_DONE 67
#define TDS_CLIENT_TOKEN 68 /* token_fault of the client says which, as 1 to 7 */
#define TDS_CLIENT_LOST 69

/* ---- Packets (MS-TDS 2.2.3) */

#define TDS_TO_SERVER 0
#define TDS_TO_CLIENT 1

/* A packet of `length` bytes: its header has 8, and its data are the others. */
struct tds_packet {
    size_t length;
    uint8_t kind;   /* the header's type */
    uint8_t status; /* the header's status; bit 1 is set in a message's last packet */
};

/* The packet at the front of the bytes. TDS_OK: it is there. TDS_WANTS_BYTES: call again with more
 * bytes behind these. 41 to 46: its header is refused. TDS_OUT_OF_RANGE: the packet size isn't 512
 * to 32,767, or the direction none. */
uint8_t tds_packet_read(const uint8_t *bytes, size_t length, uint16_t size, uint8_t direction,
                        struct tds_packet *packet);

/* The packets at the front of the bytes, up to `room` of them in one call: those that tds_packet_read
 * gives one after the other. They stand at the front of `packets`, and `count` says how many; each
 * begins where the one before ends. TDS_OK: the room is full, and there may be more. Else it is what
 * tds_packet_read answers behind them: TDS_WANTS_BYTES, also where no byte is left, or 41 to 46. */
uint8_t tds_packets_read(const uint8_t *bytes, size_t length, uint16_t size, uint8_t direction,
                         struct tds_packet *packets, size_t room, size_t *count);

/* ---- The client */

#define TDS_IDLE 0
#define TDS_SENDING 1
#define TDS_READING 2
#define TDS_CANCELLING 3
#define TDS_BROKEN 4

#define TDS_RESET_NONE 0
#define TDS_RESET_FULL 1             /* RESETCONNECTION */
#define TDS_RESET_KEEP_TRANSACTION 2 /* RESETCONNECTIONSKIPTRAN */

/* The longest message of a request: a batch of 2,000 units. */
#define TDS_MESSAGE_MOST 4022

/* The client's end of one connection. It is a plain value: it may be copied, and there is nothing
 * to free. Read its fields, and write none. */
struct tds_client {
    uint64_t descriptor; /* of the open transaction, as the server told it; 0 for none */
    size_t sent;         /* the bytes of the request's message that are out */
    size_t packets;      /* the packets of the request that are out */
    uint16_t size;       /* the packet size */
    uint8_t stage;       /* TDS_IDLE to TDS_BROKEN */
    uint8_t kind;        /* the type of the request's packets, in TDS_SENDING */
    uint8_t fault;       /* in TDS_BROKEN, what broke it: 1 to 9, as 61 to 69 */
    uint8_t token_fault; /* and of a token's fault which: 1 to 7, as 51 to 57 */
    uint8_t mark;        /* the reset that the next request asks for */
    uint8_t done;        /* the final DONE of the message that comes: 1 it came, 2 with bit 0020 */
    uint8_t columns;     /* the columns that are known inside the message that comes */
};

/* A new client for packets of this size (512 to 32,767): idle, with no transaction and no mark. */
uint8_t tds_client_new(uint16_t size, struct tds_client *client);

/* In idle: lets the next request ask for a reset. Of two marks the stronger one stays. */
uint8_t tds_client_mark_reset(struct tds_client *client, uint8_t reset);

/* In idle: takes a request. Nothing goes out yet. Its message is written to `message`, which has
 * room for `room` bytes (TDS_MESSAGE_MOST always does), and its length to `count`. Keep it until
 * all of it is out. A batch has 1 to 2,000 units of UTF-16; an isolation level is 0 to 5. */
uint8_t tds_client_start_batch(struct tds_client *client, const uint16_t *text, size_t units,
                               uint8_t *message, size_t room, size_t *count);
uint8_t tds_client_start_begin(struct tds_client *client, uint8_t isolation, uint8_t *message,
                               size_t room, size_t *count);

/* The same of a commit and of a rollback. `next` is the isolation level of the transaction that it
 * begins at once, or TDS_NO_NEXT. */
#define TDS_NO_NEXT 255
uint8_t tds_client_start_commit(struct tds_client *client, uint8_t next, uint8_t *message,
                                size_t room, size_t *count);
uint8_t tds_client_start_rollback(struct tds_client *client, uint8_t next, uint8_t *message,
                                  size_t room, size_t *count);

/* In sending: writes the request's next packet to `out`, which needs room for the packet size at
 * most (where it is too short, `count` is the length of this packet). TDS_MORE or TDS_LAST. */
uint8_t tds_client_send(struct tds_client *client, const uint8_t *message, size_t length,
                        uint8_t *out, size_t room, size_t *count);

/* At any time: cancels what is underway. TDS_ASKED: an attention was written to `out` (16 bytes at
 * most); send it, and take packets until TDS_ACKNOWLEDGED. */
uint8_t tds_client_cancel(struct tds_client *client, uint8_t *out, size_t room, size_t *count);

/* Takes one packet of an answer, from its first byte to its last. TDS_MORE (in cancelling also where
 * the answer has ended, and its acknowledgement is still to come), TDS_FINISHED or
 * TDS_ACKNOWLEDGED. 61 to 69: the client is broken by this packet, nothing of it is told, and each
 * later packet is answered so. 41 to 46: the packet's header is wrong; the client is as it was, but
 * nothing behind it can be read, so call tds_client_lost. In reading, its tokens but
 * the ENVCHANGEs are the caller's, and are read by tds_token_next; in cancelling none is. */
uint8_t tds_client_take(struct tds_client *client, const uint8_t *packet, size_t length);

/* Any request, sent in parts (MS-TDS 2.2.1). What waits for a packet lies in `kept`, which has room
 * for a packet's data, its size less 8 bytes; `out` has room for a packet. The last packet of a
 * message is known by nothing but its end, so up to a packet's data wait until tds_client_finish.
 * After a cancel nothing that waits is sent. */
#define TDS_MESSAGE_BATCH 1        /* a batch of statements */
#define TDS_MESSAGE_RPC 3          /* a call of procedures */
#define TDS_MESSAGE_BULK 7         /* the rows of a bulk load */
#define TDS_MESSAGE_TRANSACTION 14 /* a request to the transaction manager */

/* In idle: begins a message. ALL_HEADERS of it are the library's, where it has them: they are
 * written to `kept`, and `count` says how many bytes wait (22, or 0 for a bulk load). */
uint8_t tds_client_start_message(struct tds_client *client, uint8_t kind, uint8_t *kept, size_t room,
                                 size_t *count);

/* In sending: puts bytes of the message's body behind those that wait. TDS_OK: all of them wait.
 * TDS_MORE: a packet is full and was written to `out`, `count` bytes; send it, and call again with
 * the bytes behind the `taken` ones. `waiting` says how many bytes wait, before and after. */
uint8_t tds_client_put(struct tds_client *client, uint8_t *kept, size_t kept_room, size_t *waiting,
                       const uint8_t *bytes, size_t length, size_t *taken, uint8_t *out, size_t room,
                       size_t *count);

/* Ends the message: the `waiting` bytes of `kept` go out in its last packet, written to `out`. The
 * client reads the answer then. */
uint8_t tds_client_finish(struct tds_client *client, const uint8_t *kept, size_t waiting, uint8_t *out,
                          size_t room, size_t *count);

/* In idle: sends a message that one packet has whole. It is tds_client_start_message,
 * tds_client_put of this body and tds_client_finish in one call: the packet is written to `out`,
 * `count` bytes; send it. The client reads the answer then. TDS_OUT_OF_RANGE, in whatever stage:
 * `kind` is none, or ALL_HEADERS and the body are longer than a packet's data, its size less 8
 * bytes; then the three calls are for it. */
uint8_t tds_client_ask(struct tds_client *client, uint8_t kind, const uint8_t *body, size_t length,
                       uint8_t *out, size_t room, size_t *count);

/* For a driver that reads the tokens of any server by itself: it tells the client of each one, in
 * their order, and of the end of each message (behind the packet whose status has bit 1), in place
 * of tds_client_take. TDS_TELL or TDS_DROP says whether the caller that asked is told of the token.
 * 61 to 69: the client is broken. tds_client_hear of tds_wire.h does it for a whole packet. */

/* An ENVCHANGE of a transaction or a reset (MS-TDS 2.2.7.9): 8, 9, 10 or 18; 11 counts as a begin,
 * 12 and 17 as an end. An 18 that no request asked for is a full reset's. `descriptor` is the new value
 * of 8 and 11, and else the old one. */
uint8_t tds_client_heard_change(struct tds_client *client, uint8_t change, uint64_t descriptor);

/* A DONE (0xFD), DONEPROC (0xFE) or DONEINPROC (0xFF) with this status. */
uint8_t tds_client_heard_done(struct tds_client *client, uint8_t kind, uint16_t status);

/* Any other token. */
uint8_t tds_client_heard_other(struct tds_client *client);

/* The end of a message. TDS_FINISHED, TDS_ACKNOWLEDGED or, in cancelling, TDS_MORE: the
 * acknowledgement is still to come. */
uint8_t tds_client_message_ended(struct tds_client *client);

/* The connection is lost: the client is broken, unless it is broken already. */
uint8_t tds_client_lost(struct tds_client *client);

/* ---- Tokens (MS-TDS 2.2.7) */

#define TDS_INFO 0xAB
#define TDS_ERROR 0xAA
#define TDS_RETURNSTATUS 0x79
#define TDS_COLMETADATA 0x81
#define TDS_ROW 0xD1
#define TDS_ENVCHANGE 0xE3
#define TDS_DONE 0xFD

#define TDS_BEGIN 8
#define TDS_COMMIT 9
#define TDS_ROLLBACK 10
#define TDS_RESET_DONE 18

/* A place in a packet's data: the first is {0, columns}, with the `columns` that the client had
 * before it took the packet. */
struct tds_cursor {
    size_t at;
    uint8_t columns;
};

/* A token. A field that its kind does not have is 0. Its bytes begin at `start` of the data, and
 * texts, names of columns and values of a row are read from there.
 *   ROW: 4 bytes a value from start + 1 on, signed, the low byte first.
 *   INFO, ERROR: from start + 9 on, the count of the text's units (2 bytes) and the units; then the
 *     server's and the procedure's name, each with its count before it (1 byte).
 *   COLMETADATA: from start + 3 on, of each column: its user type (4 bytes), its flags (2), its type
 *     (1, INT4), the count of its name's units (1) and the units. */
struct tds_token {
    uint64_t value;   /* DONE: its rows. ENVCHANGE: the descriptor. COLMETADATA: its columns. ROW: its values */
    size_t start;
    int32_t number;   /* INFO, ERROR: the number. RETURNSTATUS: the value */
    int32_t line;     /* INFO, ERROR */
    uint16_t status;  /* DONE */
    uint16_t cur_cmd; /* DONE */
    uint8_t kind;     /* TDS_INFO to TDS_DONE */
    uint8_t state;    /* INFO, ERROR */
    uint8_t severity; /* INFO, ERROR: the class */
    uint8_t change;   /* ENVCHANGE: TDS_BEGIN to TDS_RESET_DONE */
};

/* Reads the token at the cursor of these data, and goes on behind it. TDS_OK: it is in `token`.
 * TDS_END: the data are at their end. 51 to 57: they spell no token. Unless it is TDS_OK, `token`
 * is as it was. */
uint8_t tds_token_next(const uint8_t *data, size_t length, struct tds_cursor *cursor,
                       struct tds_token *token);

/* The same of up to `room` tokens in one call: those that tds_token_next gives one after the other.
 * They stand at the front of `tokens`, and `count` says how many. TDS_OK: the room is full, and
 * there may be more. TDS_END: these were the last ones. 51 to 57: behind these the data spell no
 * token. In each case the tokens that were read are there, and the cursor stands where
 * tds_token_next would leave it. Without room (0) nothing is read. */
uint8_t tds_tokens_next(const uint8_t *data, size_t length, struct tds_cursor *cursor,
                        struct tds_token *tokens, size_t room, size_t *count);

/* Rows one behind the other, all of the same width: each has 1 + 4 * columns bytes, its token byte
 * and its values. */
struct tds_rows {
    size_t start;   /* the first byte of the first row in the data */
    size_t count;   /* how many rows there are */
    size_t columns; /* how many values each has */
};

/* Finds all the rows at the cursor, and goes on behind them. TDS_OK, also where there is none, or
 * one that is cut or whose columns aren't known: `count` is 0 then, and tds_token_next reads what is
 * there, or says why not. */
uint8_t tds_rows_next(const uint8_t *data, size_t length, struct tds_cursor *cursor,
                      struct tds_rows *rows);

/* Where each token of an answer ends (MS-TDS 2.2.7), for every type of column of TDS 7.2 to 7.4, as
 * its bytes come in pieces of any size. C99 and C++. It is a part of the client's library (tds.h).
 *
 * A walk is a plain value, beside memory that its caller lends to each call: 8,706 bytes, which no
 * call copies. Both may be copied together; there is nothing to free. No call takes memory, and no
 * value of a row is kept.
 *
 *     static struct tds_wire_memory memory;
 *     struct tds_wire walk = {0};
 *     tds_wire_new(TDS_WIRE_MOST_COLUMNS, 0, 0, &walk, &memory);
 *     while (length > 0) {                   // the data of a packet of type 04, without its header
 *         struct tds_wire_token token = {0};
 *         size_t count;
 *         uint8_t answer = tds_wire_next(&walk, &memory, bytes, length, &count, &token);
 *         if (answer > TDS_WIRE_MORE) break; // refused, at walk.refused.at
 *         if (answer == TDS_WIRE_ENDED) ..   // token.start, token.length, what is told of it
 *         bytes += count, length -= count;   // at least one byte
 *     }
 *     tds_wire_is_between(&walk, &memory)    // behind the message's last packet: it ended well
 *     tds_wire_restart(&walk, &memory)       // before the next message
 *
 * tds_client_hear does all this for a client of tds.h, in one call for a packet's data.
 *
 * WHAT A CALLER OWES is what tds.h says: no pointer is null, and so on. A walk and its memory belong
 * together. Any bytes in them are read within their bounds: a walk that no call made is answered by
 * TDS_WIRE_NO_WALK, or is some other walk.
 */

#define TDS_WIRE_MOST_COLUMNS 4096

/* ---- What a call answers */

#define TDS_WIRE_ENDED 0    /* next: a token has ended. The others: done, or not between two tokens */
#define TDS_WIRE_MORE 1     /* next: all bytes are done with. is_between: it is */
#define TDS_WIRE_NO_WALK 20 /* the value is no walk's: nothing was done */

/* No answer has these bytes; `refused` of the walk says which byte, and where. Each later call
 * answers it again, up to a restart. */
#define TDS_WIRE_UNKNOWN_TOKEN 71
#define TDS_WIRE_NO_COLUMNS 72   /* a row, and no columns are known */
#define TDS_WIRE_UNKNOWN_TYPE 73
#define TDS_WIRE_MANY_COLUMNS 74 /* more than there is room for */

/* hear: the server broke the protocol at a message's end */
#define TDS_WIRE_CUT 75      /* it ended inside a token, and no attention was out */
#define TDS_WIRE_NO_RESET 76 /* the request asked for a reset, and its answer tells of none */

/* ---- The walk */

struct tds_wire_column { uint8_t form, bytes; };

/* Only the library reads and writes it. */
struct tds_wire_memory {
    struct tds_wire_column columns[TDS_WIRE_MOST_COLUMNS];
    uint8_t nulls[TDS_WIRE_MOST_COLUMNS / 8];
    uint16_t count;
};

struct tds_wire_due { uint64_t left; uint32_t value; uint16_t change; uint8_t due, bytes, field, next, fault; };
struct tds_wire_inside { uint16_t column; uint8_t inside; struct tds_wire_column base; };

/* A byte that was refused, and its place in the message, where fault isn't 0: 1 to 4 as above. */
struct tds_wire_refusal { uint64_t at; uint8_t fault, byte; };

/* Only the library writes it. `refused`, `start` and `passed` may be read: where the token starts
 * that it is in, and how many bytes of that have come. */
struct tds_wire {
    struct tds_wire_due due;
    struct tds_wire_refusal refused;
    uint64_t start, passed;
    uint16_t most, entries;
    struct tds_wire_inside inside;
    struct tds_wire_column shape;
    uint8_t kind, parts, ciphered, encryption, ranks;
    uint8_t head[24], head_count;
};

/* ---- A token that ended */

#define TDS_WIRE_TELLS_NOTHING 0
#define TDS_WIRE_TELLS_DONE 1          /* status, command, value: the count of rows */
#define TDS_WIRE_TELLS_TRANSACTION 2   /* ENVCHANGE 8 to 12, 17: value and old_value, descriptors */
#define TDS_WIRE_TELLS_RESET 3         /* ENVCHANGE 18 */
#define TDS_WIRE_TELLS_PACKET_SIZE 4   /* ENVCHANGE 4: size */
#define TDS_WIRE_TELLS_VALUES 5        /* ENVCHANGE 1, 2, 7, 15, 20: text the new one, others the old */
#define TDS_WIRE_TELLS_OTHER_CHANGE 6  /* any other ENVCHANGE */
#define TDS_WIRE_TELLS_MESSAGE 7       /* ERROR, INFO: number, state, severity, text; others: names, line */
#define TDS_WIRE_TELLS_RETURN_STATUS 8 /* number */
#define TDS_WIRE_TELLS_SESSION_STATE 9 /* size: its number, recoverable, text: the states */
#define TDS_WIRE_TELLS_UNCLEAR 10      /* one of these whose fields don't fit its length or type */

/* Bytes of the message, from its first byte on. They may have come in pieces that are gone. */
struct tds_wire_place { uint64_t start, length; };

/* A field that its kind doesn't have is 0. */
struct tds_wire_token {
    uint64_t start, length; /* of the token, its first byte counted */
    uint64_t value, old_value;
    struct tds_wire_place text, others;
    int32_t number;
    uint32_t size;
    uint16_t status, command;
    uint8_t kind;   /* its first byte */
    uint8_t told;   /* one of the above */
    uint8_t change; /* the type of an ENVCHANGE */
    uint8_t state, severity, recoverable;
};

/* ---- The calls */

/* A walk before the first token of an answer, with room for so many columns (any number beyond 4,096
 * is as 4,096). The others are not 0 where the FEATUREEXTACK of the login acknowledged column
 * encryption, and data classification of version 2. 0. */
uint8_t tds_wire_new(uint16_t most, uint8_t encryption, uint8_t ranks, struct tds_wire *walk,
                     struct tds_wire_memory *memory);

/* Takes bytes of an answer's data up to the end of one token: at least one byte, where there is one.
 * `count` is how many; where bytes are refused, 0. `token` is written where a token has ended. */
uint8_t tds_wire_next(struct tds_wire *walk, struct tds_wire_memory *memory, const uint8_t *bytes,
                      size_t length, size_t *count, struct tds_wire_token *token);

/* Whether a message may end here: 1 between two tokens, 0 inside one or where bytes were refused. */
uint8_t tds_wire_is_between(const struct tds_wire *walk, const struct tds_wire_memory *memory);

/* Begins anew, before the first token of a message, with no columns, whatever was before. 0. */
uint8_t tds_wire_restart(struct tds_wire *walk, struct tds_wire_memory *memory);

/* ---- Columns, and where the values of a row stand */

#define TDS_WIRE_SAME_COLUMNS 2 /* columns: it describes none, and those that are known stay */

/* A column, as a COLMETADATA (MS-TDS 2.2.7.4) describes it. */
struct tds_column {
    struct tds_wire_place name; /* in the token, from its first byte on: units of two bytes */
    uint32_t size;              /* the most bytes that a value has; 65,535 in parts, 0 where nothing says it */
    uint32_t user_type;
    uint16_t flags;
    uint8_t kind;                 /* the type's byte */
    uint8_t precision, scale;     /* 0 where the type has none */
    uint8_t collation[5];         /* zeros where the type has none */
    struct tds_wire_column shape; /* how values are spelled: form 5 is in parts */
};

/* Where a value's own bytes stand in a row's token, from its first byte on. Of a value in parts these
 * are all its parts, each behind its count of four bytes, without the empty one behind them. */
struct tds_place {
    uint64_t start, length;
    uint8_t null; /* 1 where the value is null, else 0 */
};

/* The columns that the COLMETADATA describes which the bytes begin with: `count` of them, to the front
 * of `columns`, out of `taken` bytes. `encryption` isn't 0 where the login acknowledged column
 * encryption.
 *
 * TDS_WIRE_ENDED (0), TDS_WIRE_SAME_COLUMNS (2); TDS_WIRE_MORE (1): the token isn't whole. 71: another
 * token; 73: TDS_WIRE_UNKNOWN_TYPE; 74: there is less room than columns. At all but 0 `count` is 0, at
 * all but 0 and 2 `taken` is 0, and any columns may be written. */
uint8_t tds_columns(const uint8_t *bytes, size_t length, uint8_t encryption, struct tds_column *columns,
                    size_t room, size_t *count, size_t *taken);

/* Where each value stands in the row that bytes begin with, a ROW or an NBCROW of these columns:
 * `count` places, to the front of `places`; `taken` is how many bytes the row has.
 *
 * TDS_WIRE_ENDED (0); TDS_WIRE_MORE (1): the row isn't whole. 71: another token; 72: no columns; 74:
 * there is less room than columns. At all but 0 `taken` is 0, and any of those places may be written. */
uint8_t tds_row_places(const struct tds_column *columns, size_t count, const uint8_t *bytes, size_t length,
                       struct tds_place *places, size_t room, size_t *taken);

/* The same of the rows that bytes begin with, ROWs and NBCROWs of these columns, one behind the other: all that a
 * packet has in one call. Of the row i the places are `count` from places[i * count] on, from the first of these
 * bytes on; `rows` is how many rows these are, `taken` how many bytes they have.
 *
 * TDS_WIRE_ENDED (0): no byte is left. Else what stands behind them: TDS_WIRE_MORE (1): a row that isn't whole; 71:
 * another token; 72: a row, and no columns; 74: there are fewer places left than columns. Behind the places of
 * `rows` rows those of one row more may be written. */
uint8_t tds_places_of_rows(const struct tds_column *columns, size_t count, const uint8_t *bytes, size_t length,
                           struct tds_place *places, size_t room, size_t *rows, size_t *taken);

/* ---- A row that isn't whole yet, and a value in parts as it comes */

/* Bytes of a row are read from the value on that wasn't whole; one in parts (form 5) needn't ever be kept:
 *
 *     answer = tds_row_values(columns, count, first, nulls, bits, bytes, length, places, count, &next, &taken);
 *     if (answer == TDS_WIRE_MORE && columns[next].shape.form == 5) {
 *         struct tds_parts parts = {0};                // the bytes from `taken` on, and those that come behind them
 *         do {
 *             answer = tds_parts_next(&parts, bytes, length, &start, &own, &taken);
 *             ..                                       // `own` bytes of the value, from bytes + start on
 *             bytes += taken, length -= taken;
 *         } while (answer == TDS_WIRE_MORE);           // where no byte is left: with those that come
 *     }                                                // and then tds_row_values from next + 1 on
 */

/* Where a value in parts is that comes in pieces; zeros before its first byte. Only the library writes it. */
struct tds_parts {
    uint32_t left;
    uint8_t stage, seen, first, second, third;
};

/* Where each value stands that is whole, in bytes of a row that begin with the value of the column `first`:
 * places[first] and so on, from the first of these bytes on. A ROW's values begin behind its first byte, an
 * NBCROW's behind its null bitmap too, which is `nulls` then, (count + 7) / 8 bytes; else `bits` is 0.
 *
 * TDS_WIRE_ENDED (0): all values up to the row's end are whole; TDS_WIRE_MORE (1): that of the column `next` isn't,
 * and it begins at `taken`. 72: there are fewer columns; 74: fewer places than columns, or bits. Then nothing is
 * written but `next` and `taken`, which are 0. */
uint8_t tds_row_values(const struct tds_column *columns, size_t count, size_t first, const uint8_t *nulls, size_t bits,
                       const uint8_t *bytes, size_t length, struct tds_place *places, size_t room, size_t *next,
                       size_t *taken);

#define TDS_PARTS_NULL 2 /* next: it is over, and null */

/* Takes what comes next of a value in parts, from its first byte on, up to the end of a part: `count` bytes of its
 * own stand at `start`, and `taken` bytes are done with. Call it again with the bytes behind them.
 *
 * TDS_WIRE_ENDED (0): it is over, and no byte behind `taken` is its; TDS_PARTS_NULL (2): the same, and it is null;
 * TDS_WIRE_MORE (1): there is more to come. Where `count` is 0 then, all bytes are done with. */
uint8_t tds_parts_next(struct tds_parts *parts, const uint8_t *bytes, size_t length, size_t *start, size_t *count,
                       size_t *taken);

/* ---- A client and a walk in one call */

struct tds_client; /* of tds.h, as are the names TDS_.. below */

/* Takes the data of a packet of any server's answer (type 04, behind its header), or those of them that
 * are left: of each token that ends there the client hears what it says, as by tds_client_heard_change,
 * _done or _other, and those that the caller who asked is told of are written to the front of `tokens`,
 * `count` of them. `taken` bytes are done with. Call it once for each packet, and again with the bytes
 * behind them while it answers TDS_TELL. `ends` is not 0 where the packet's status has bit 1.
 *
 * TDS_TELL (10): the room is full, and bytes are left. Without room (0, and then any pointer that is not
 * null) those tokens alone pass that nobody is told of. TDS_OK (0): all bytes are done with, and the
 * message goes on. Where it ends with them: TDS_FINISHED (3), TDS_ACKNOWLEDGED (4), or in cancelling
 * TDS_MORE (1), as by tds_client_message_ended; the walk begins anew, as by tds_wire_restart. Behind a
 * cancel a message may end inside a token.
 *
 * TDS_NO_CLIENT (20): the client or the walk is none, and nothing was done. 61 to 69, 71 to 76: the client
 * is broken, by 71 to 76 as one whose connection is lost. The client has heard the tokens before, and
 * those that are told stand in `tokens`; `taken` are the bytes of all tokens before. At 71 to 74 `refused`
 * of the walk says which byte.
 *
 * A client and its walk belong together, from the first byte of an answer to its end; between two answers
 * the client may be cancelled, asked and sent as ever. */
uint8_t tds_client_hear(struct tds_client *client, struct tds_wire *walk, struct tds_wire_memory *memory,
                        const uint8_t *bytes, size_t length, uint8_t ends, size_t *taken,
                        struct tds_wire_token *tokens, size_t room, size_t *count);

/* A table of connections that callers share, in front of any server: who holds each one, and what
 * becomes of it. C99 and C++. The clients in it are
 * those of tds.h. What a caller owes is said there, and beside it:
 *  - `seats` is the same array at every call, with room for `most` connections, all of it written once
 *    (`= {0}`). A table goes with its array: neither is used with another, nor is an old copy of either.
 *  - Of a seat only its client is the caller's, and by the calls of tds.h alone: to log in, or to do there
 *    what the calls by lease don't; he counts `asked` then. Any other value in it is taken for what it
 *    says: no number is refused, and none is undefined.
 *  - A seat may move when a call answers TDS_SERVICE_CLOSED or tds_service_lost is called. Keep sockets
 *    and buffers by the connection's number, and ask for its seat by tds_service_at or
 *    tds_service_find, each time.
 * No call takes memory, and each is proved to be the service's call of the same name (of Rattle's
 * crate tds_service) on the table that the values are; tds_service_came, _heard_change, _heard_done,
 * _heard_other, _message_ended and _hear are its call `came`. From 20 on nothing was done and nothing changed,
 * but for 61 to 76, which break the client.
 */

/* ---- What a call answers: TDS_OK (0), or one of these */

#define TDS_SERVICE_FREE 1     /* the connection may be lent again */
#define TDS_SERVICE_DRAINING 2 /* it is free once its acknowledgement has come: tds_service_drained */
#define TDS_SERVICE_CLOSED 3   /* it is in the table no longer: close its socket */

#define TDS_SERVICE_NO_TABLE 20 /* the table has more connections than the array has room for */
/* TDS_NO_ROOM (21): `out` or `kept` is too short, `count` is wanted */
#define TDS_SERVICE_USED_UP 22  /* 2^64 - 1 leases, connections or requests were given; 2^63 packets */
/* TDS_OUT_OF_RANGE (23): no message, change or DONE has this number, or more waits than a packet holds */
/* TDS_NOT_IDLE (31), TDS_NOT_SENDING (32), TDS_IS_BROKEN (33): the lease's connection refuses it now */
#define TDS_SERVICE_UNKNOWN 34  /* there is no such lease, ticket or connection */
/* TDS_NO_MEMORY (22): in the C file for machines of 32 bits, or with the high byte first, whose calls
 * take memory and give it back */
#define TDS_SERVICE_ALL_IN_USE 35 /* as many connections are there as may be, and none can be lent */
#define TDS_SERVICE_NOT_NOW 36  /* the connection isn't idle, or isn't so that this can be done */

/* TDS_CLIENT_ANSWER_IN_IDLE to TDS_CLIENT_LOST (61 to 69, not 65, 67 and 68): the server broke
 * the protocol. So it did by these: */
#define TDS_SERVICE_CUT 75        /* its message ended inside a token */
#define TDS_SERVICE_NO_RESET 76   /* a request asked for a reset, and its answer tells of none */

/* ---- The table */

#define TDS_PLACE_FREE 0
#define TDS_PLACE_LENT 1
#define TDS_PLACE_CLEANING 2
#define TDS_PLACE_KEPT 3
#define TDS_PLACE_DRAINING 4

/* A connection. */
struct tds_seat {
    struct tds_client client;
    uint64_t number; /* the connection's: 1, 2, .. */
    uint64_t holder; /* the number of the lease or the ticket that holds it */
    uint64_t asked;  /* how many requests were asked on it, which are their numbers */
    uint8_t place;
};

/* A table. All fields but `size`, the packet size of new clients, begin with 0. */
struct tds_service {
    uint64_t last, given; /* the numbers of the newest connection, and of the newest lease or ticket */
    size_t count;         /* the connections: they stand at the array's front */
    uint16_t size;
};

/* A lease. */
struct tds_lent {
    uint64_t lease, number;
    uint8_t had; /* 0: nobody had the connection before; open it and log in */
};

/* Lends a free connection that is idle, and marks its client for a full reset; else a new one, where
 * fewer are there than the array has room for: its client is new (TDS_IDLE), and it is to be opened
 * and logged in. TDS_OK, or TDS_SERVICE_ALL_IN_USE. */
uint8_t tds_service_lease(struct tds_service *service, struct tds_seat *seats, size_t most,
                          struct tds_lent *lent);

/* Where the connection of a lease, or of a number, stands in the array: for what tds.h has and this
 * hasn't. TDS_OK, or TDS_SERVICE_UNKNOWN. */
uint8_t tds_service_find(const struct tds_service *service, const struct tds_seat *seats, size_t most,
                         uint64_t lease, size_t *index);
uint8_t tds_service_at(const struct tds_service *service, const struct tds_seat *seats, size_t most,
                       uint64_t number, size_t *index);

/* ---- What a lease asks. Behind its end each of these is TDS_SERVICE_UNKNOWN, and nothing is done. */

/* A request that was asked: its connection's number, and its own there: 1, 2, .. */
struct tds_asked {
    uint64_t number, request;
};

/* Begins a request of any kind (TDS_MESSAGE_BATCH and so on). As of tds_client_start_message, its headers
 * are written to `kept`, which is for its connection alone and has room for the packet size less 8;
 * `count` bytes wait there. The body goes in by tds_service_put, the end by tds_service_finish. TDS_OK. */
uint8_t tds_service_ask(const struct tds_service *service, struct tds_seat *seats, size_t most,
                        uint64_t lease, uint8_t kind, uint8_t *kept, size_t room, size_t *count,
                        struct tds_asked *asked);

/* Puts bytes of the body behind the `waiting` ones of `kept`, as tds_client_put. TDS_OK: all of them
 * wait. TDS_MORE: a packet was written to `out`, which has room for one; send it, and put those behind
 * the `taken` ones again. */
uint8_t tds_service_put(const struct tds_service *service, struct tds_seat *seats, size_t most,
                        uint64_t lease, uint8_t *kept, size_t kept_room, size_t *waiting,
                        const uint8_t *bytes, size_t length, size_t *taken, uint8_t *out, size_t room,
                        size_t *count);

/* Ends the request: the `waiting` bytes of `kept` go out in its last packet, written to `out`. TDS_OK. */
uint8_t tds_service_finish(const struct tds_service *service, struct tds_seat *seats, size_t most,
                           uint64_t lease, const uint8_t *kept, size_t waiting, uint8_t *out,
                           size_t room, size_t *count);

/* Cancels what is underway, as tds_client_cancel: TDS_NOTHING, TDS_ALREADY, TDS_UNSENT, or TDS_ASKED:
 * send what was written to `out`, 16 bytes at most. */
uint8_t tds_service_cancel(const struct tds_service *service, struct tds_seat *seats, size_t most,
                           uint64_t lease, uint8_t *out, size_t room, size_t *count);

/* ---- What comes on the connection of a number, whoever holds it. */

/* Whose it is: the lease that holds the connection, 0 where none does, and its newest request. */
struct tds_whose {
    uint64_t lease, request;
};

/* A token came, as tds_wire_next gave it (its kind, what it tells, and where it stands are in it).
 * TDS_TELL: it is that request's. TDS_DROP: nobody is told of it: the request was cancelled, or it is
 * a change of a transaction or a reset. Where tds_wire_next refuses bytes, or a packet's header is
 * wrong, nothing behind it can be read: tds_service_lost. */
uint8_t tds_service_came(const struct tds_service *service, struct tds_seat *seats, size_t most,
                         uint64_t number, const struct tds_wire_token *token, struct tds_whose *whose);

/* The same for a reader of your own: an ENVCHANGE of a transaction or a reset, a DONE, any other token,
 * by what tds_client_heard_change, _done and _other take. */
uint8_t tds_service_heard_change(const struct tds_service *service, struct tds_seat *seats, size_t most,
                                 uint64_t number, uint8_t change, uint64_t descriptor,
                                 struct tds_whose *whose);
uint8_t tds_service_heard_done(const struct tds_service *service, struct tds_seat *seats, size_t most,
                               uint64_t number, uint8_t kind, uint16_t status,
                               struct tds_whose *whose);
uint8_t tds_service_heard_other(const struct tds_service *service, struct tds_seat *seats, size_t most,
                                uint64_t number, struct tds_whose *whose);

/* A message has ended (behind its packet whose status has bit 1), between two tokens, or inside one
 * where `cut` isn't 0. TDS_FINISHED: the request has its whole answer. TDS_ACKNOWLEDGED: its cancel is
 * acknowledged, and a connection that drained (whose->lease is 0) is free. TDS_MORE: the
 * acknowledgement is still to come. */
uint8_t tds_service_message_ended(const struct tds_service *service, struct tds_seat *seats, size_t most,
                                  uint64_t number, uint8_t cut, struct tds_whose *whose);

/* All that in one call, for the data of a packet of an answer (type 04, behind its header) that came on the
 * connection of this number, or for those of them that are left: of each token that ends there the table
 * hears what it says, as by tds_service_came, and those that its caller is told of are written to the front
 * of `tokens`, `count` of them; all are the request's that is written to `whose`. `taken`, `ends` and the
 * answers are those of tds_client_hear (tds_wire.h): TDS_TELL, TDS_OK, and where the message ends
 * TDS_FINISHED, TDS_ACKNOWLEDGED, TDS_MORE. Behind 61 to 76 the connection is broken, and the tokens before
 * were heard: tds_service_lost. The walk is the connection's own; where it is none, TDS_WIRE_NO_WALK (20). */
uint8_t tds_service_hear(const struct tds_service *service, struct tds_seat *seats, size_t most,
                         uint64_t number, struct tds_wire *walk, struct tds_wire_memory *memory,
                         const uint8_t *bytes, size_t length, uint8_t ends, size_t *taken,
                         struct tds_wire_token *tokens, size_t room, size_t *count,
                         struct tds_whose *whose);

/* ---- The end of a lease */

/* Ends a lease. What is underway is cancelled, and what is to be sent for that is written to `out` (16
 * bytes at most), for the connection whose number is written. TDS_SERVICE_FREE, _DRAINING, _CLOSED. */
uint8_t tds_service_give_back(struct tds_service *service, struct tds_seat *seats, size_t most,
                              uint64_t lease, uint8_t *out, size_t room, size_t *count,
                              uint64_t *number);

/* For a connection that drains, each time that its client has taken something by a call of tds.h (behind
 * those above it isn't needed): TDS_SERVICE_FREE once the client is idle, else TDS_SERVICE_DRAINING.
 * TDS_SERVICE_NOT_NOW where it doesn't drain. */
uint8_t tds_service_drained(struct tds_service *service, struct tds_seat *seats, size_t most,
                            uint64_t number);

/* The connection of this number is lost: it is in the table no longer, and its lease unknown. */
uint8_t tds_service_lost(struct tds_service *service, struct tds_seat *seats, size_t most,
                         uint64_t number);

/* Keeps a connection that is idle in a transaction, for a ticket; lends it again by that, with the
 * transaction; gives it up. Each spends the lease or the ticket that it is called with. */
uint8_t tds_service_keep(struct tds_service *service, struct tds_seat *seats, size_t most,
                         uint64_t lease, uint64_t *ticket);
uint8_t tds_service_resume(struct tds_service *service, struct tds_seat *seats, size_t most,
                           uint64_t ticket, struct tds_lent *lent);
uint8_t tds_service_abandon(struct tds_service *service, struct tds_seat *seats, size_t most,
                            uint64_t ticket, uint64_t *number);

/* Lends the connection of this number, if it is free and idle, to be cleaned: ask a request on it (a
 * batch that does nothing), which asks for a full reset. Once it is answered, tds_service_cleaned ends
 * that lease: TDS_SERVICE_FREE where the reset was done and no transaction is open, else
 * TDS_SERVICE_CLOSED. */
uint8_t tds_service_clean(struct tds_service *service, struct tds_seat *seats, size_t most,
                          uint64_t number, struct tds_lent *lent);
uint8_t tds_service_cleaned(struct tds_service *service, struct tds_seat *seats, size_t most,
                            uint64_t lease, uint64_t *number);

/* What both ends of a connection do wrong, for those who recorded its bytes: a test suite, or a proxy
 * that keeps what it forwards. One call judges one connection, from its first piece to its last; a
 * connection that was recorded from its middle on is taken up at the next message of each side. What
 * each finding says stands in docs/JUDGING.md. C99 and C++. What a caller owes is said in tds.h; a call takes memory of some 10 KB and what its findings
 * need, and gives it back.
 *
 *     struct tds_judge_limits limits = {5000000, 4096, 0, 0};
 *     struct tds_judge_piece pieces[] = {{time, sizeof request, TDS_JUDGE_TO_SERVER}, ..};
 *     struct tds_judge_finding findings[64];
 *     size_t count;
 *     tds_judge(&limits, pieces, 2, bytes, length, findings, 64, &count)
 */

#define TDS_JUDGE_MOST_COLUMNS 4096

/* ---- What a call answers */

#define TDS_JUDGED 0          /* `count` findings were written */
#define TDS_JUDGE_NO_ROOM 1   /* there are `count` of them; nothing was written */
#define TDS_JUDGE_MISFIT 2    /* more than 4,096 columns, or the pieces have more bytes than are there */
#define TDS_JUDGE_NO_MEMORY 3

/* ---- A connection */

struct tds_judge_limits {
    uint64_t idle;      /* how long a transaction may be idle, in microseconds; 0: as long as it likes */
    uint16_t columns;   /* the most columns of a result */
    uint8_t encryption; /* whether the login acknowledged column encryption, */
    uint8_t ranks;      /* and data classification of version 2 */
};

#define TDS_JUDGE_TO_SERVER 0
#define TDS_JUDGE_TO_CLIENT 1
#define TDS_JUDGE_BORROWED 2 /* a piece's `what`: the connection is lent to somebody else; no bytes */
#define TDS_JUDGE_CLOSED 3   /* it is closed, or reset; no bytes. Any other number is as this one */

/* Bytes of one direction, of any size, in the order in which they were seen: each piece has the bytes
 * behind those of the piece before. */
struct tds_judge_piece {
    uint64_t time; /* microseconds */
    size_t length;
    uint8_t what;
};

/* ---- Findings */

#define TDS_JUDGE_BREACH 0 /* MS-TDS forbids it */
#define TDS_JUDGE_RISK 1   /* it is lawful, and loses work or an answer */
#define TDS_JUDGE_NOTE 2

struct tds_judge_finding {
    uint64_t offset;   /* the byte of its direction, from 0 */
    uint64_t time;     /* of its piece */
    uint64_t value;    /* what goes with it, or 0 */
    uint8_t number;    /* 1 to 45 */
    uint8_t level;     /* a breach, a risk, a note */
    uint8_t direction; /* to the server, to the client */
};

/* Judges one connection. Findings come in the order in which they were found. */
uint8_t tds_judge(const struct tds_judge_limits *limits, const struct tds_judge_piece *pieces,
                  size_t piece_count, const uint8_t *bytes, size_t length,
                  struct tds_judge_finding *findings, size_t room, size_t *count);

/* The player of schedules, for those who test their own code against it: a schedule's text in, its
 * report's text out (docs/SCHEDULES.md). What a caller owes is said in tds.h; a call takes a stack of 1 MB, and memory. */

#define TDS_PLAYED 0       /* the report's text was written */
#define TDS_NOT_PLAYED 1   /* the line that says why not was written, as `error: schedule 3` */
#define TDS_PLAY_NO_ROOM 2 /* `count` bytes are wanted; nothing was written */

/* Plays a schedule over links in memory that never fail, and writes its report to `out`, or the line
 * that says why not. Either text ends in a line feed, which `count` counts, with no 0 behind it. Where
 * memory is refused it answers TDS_NOT_PLAYED with the line `error: memory`. */
uint8_t tds_play(const uint8_t *schedule, size_t length, uint8_t *out, size_t room, size_t *count);

#ifdef __cplusplus
}
#endif

#endif
