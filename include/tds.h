/* The client's end of a connection that speaks the Tabular Data Stream (MS-TDS): packets, the
 * client, and the tokens of an answer. C99 and C++. The library does no input or output and starts
 * no thread; each call is proved to be the client's call on the value that is handed to it.
 *
 * WHAT A CALLER OWES. The proofs hold where each call is made so; nothing checks it but what a release
 * looks at before the call (MOUKTELF_MISFIT): null pointers, and lengths that nothing can have.
 *  - No pointer is null, also where its length is 0: hand over the address of any object then. The
 *    library of this crate alone looks for none, so nothing is promised of it. With length or room 0 it
 *    reads and writes nothing there, as it is built now; a null client ends the process.
 *  - A pointer to a struct has one; a pointer with a length has that many elements, which the call
 *    may read, and write where the pointer isn't const. No length is over PTRDIFF_MAX bytes.
 *    What a call only writes (a count, a packet, a token, a message, bytes that go out, a new
 *    client) need not be set before, but has to be memory that was written once:
 *    `struct tds_client client = {0};`, in C++ `{}`.
 *  - What a call may write overlaps nothing else that is handed to the same call.
 *  - No other thread touches what is handed to a call while it runs. Two calls on different values
 *    may run at the same time. A value may go from thread to thread.
 *  - The bytes that calls on a client write go out in the order of the calls. An attention that
 *    overtakes packets that were handed out before it is acknowledged, and the next request is told
 *    what they brought: no call can see that. So one lock holds call and write, or one queue a
 *    connection has what goes out.
 *  - There is stack for the call (64 KB will do), and it isn't made from a signal handler or from
 *    the child of a fork in a process with threads.
 *  - libtds_c.a takes no memory, and needs of the C library memcpy and memmove alone. The libraries
 *    of the player, the views and the judge take memory: behind each of them on the linker's line
 *    stands liblibc_c.a of the toolchain, which what a release installs has inside. malloc, realloc and
 *    free are one allocator, and align a block to each power of two up to 16 that divides its size.
 *  - `message` of tds_client_send is what the start of that request wrote, all of it; what waits in
 *    `kept` for tds_client_put and tds_client_finish is what the call before left there.
 *  - Numbers have this machine's byte order; the library is for 64-bit machines with the low byte
 *    first.
 *
 * WHAT A CALL ANSWERS. One number, of those below. From 20 on the call was not done: the client,
 * the cursor and the buffers are as they were, and a count is 0, or where room is wanted (21) how
 * much. The exceptions are the client's faults (61 to 69), which break the client; the tokens'
 * (51 to 57), which put the cursor behind the data, with the tokens before them read; and
 * tds_packets_read, which has read the packets before what it answers. No call takes memory.
 *
 *   0                 done
 *   1 to 11           done, and more is said: what is still to come, or that nothing is
 *   20 to 26          what was handed over is wrong, or not enough: a client, room, a range, bytes
 *   31 to 33          the client refuses the call as it stands now
 *   41 to 46          a packet's header is wrong; nothing behind it can be read
 *   51 to 57          a packet's data spell no token
 *   61 to 69          the peer broke the protocol, and the client is broken
 *
 * TEXTS are UTF-16 with the low byte first. One that is handed over is an array of uint16_t (or of
 * char16_t, which is as wide; in C++ cast the pointer), aligned as its type, without a 0 behind it:
 * the length counts units, and a character outside of the first 65,536 has two. Any units are
 * taken, a lone half of a pair too. One that comes lies in the packet's data, at any address: copy
 * it out by memcpy, or read it byte by byte; a pointer of uint16_t into the data may be misaligned.
 */
#ifndef TDS_H
#define TDS_H

#include <stddef.h>
#include <stdint.h>

#ifdef __cplusplus
extern "C" {
#endif

/* ---- What a call answers */

#define TDS_OK 0           /* done */
#define TDS_MORE 1         /* send: there are more packets. put: one is full. take: the answer goes on */
#define TDS_LAST 2         /* send: all of the request is out */
#define TDS_FINISHED 3     /* take: the answer has ended, and the client is idle */
#define TDS_ACKNOWLEDGED 4 /* take: the attention is acknowledged, and the client is idle */
#define TDS_NOTHING 5      /* cancel: nothing is underway */
#define TDS_ALREADY 6      /* cancel: an attention is out already */
#define TDS_UNSENT 7       /* cancel: no packet was out, and the client is idle */
#define TDS_ASKED 8        /* cancel: an attention was written: send it */
#define TDS_END 9          /* next token: there are no more in these data */
#define TDS_TELL 10        /* heard: the caller that asked is told of this token */
#define TDS_DROP 11        /* heard: nobody is told of it, since the request was cancelled */

#define TDS_NO_CLIENT 20    /* the value is no client's */
#define TDS_NO_ROOM 21      /* the buffer that is written to is too short: `count` is wanted */
#define TDS_NO_MEMORY 22    /* put: 2^63 packets and bytes of one message would be out and wait */
#define TDS_OUT_OF_RANGE 23 /* a packet size, direction, reset, text, level, message or token is none */
#define TDS_WANTS_BYTES 24  /* less than a packet is there */
#define TDS_NO_PACKET 25    /* take: bytes stand behind the packet */
#define TDS_NO_PLACE 26     /* the cursor is no place in these data */

/* The client refuses the call. */
#define TDS_NOT_IDLE 31    /* a request is underway */
#define TDS_NOT_SENDING 32 /* no request is going out */
#define TDS_IS_BROKEN 33   /* the client is broken */

/* A packet's header is refused (MS-TDS 2.2.3.1): nothing behind it can be read. */
#define TDS_PACKET_UNKNOWN_TYPE 41
#define TDS_PACKET_OTHER_DIRECTION 42
#define TDS_PACKET_SHORT_LENGTH 43
#define TDS_PACKET_LONG_LENGTH 44
#define TDS_PACKET_WRONG_STATUS 45
#define TDS_PACKET_EMPTY_PART 46

/* The data spell no token (MS-TDS 2.2.7). */
#define TDS_TOKEN_UNKNOWN 51
#define TDS_TOKEN_CUT 52
#define TDS_TOKEN_WRONG_LENGTH 53
#define TDS_TOKEN_WRONG_ENV_CHANGE 54
#define TDS_TOKEN_WRONG_STATUS 55
#define TDS_TOKEN_NO_COLUMNS 56
#define TDS_TOKEN_WRONG_COLUMN 57

/* The peer broke the protocol, and the client is broken: close the connection. */
#define TDS_CLIENT_ANSWER_IN_IDLE 61
#define TDS_CLIENT_ANSWER_IN_SENDING 62
#define TDS_CLIENT_UNASKED_ACKNOWLEDGEMENT 63
#define TDS_CLIENT_WRONG_ENV_CHANGE 64
#define TDS_CLIENT_UNASKED_RESET 65 /* in the strict profile, as tds_client_take reads it */
#define TDS_CLIENT_NO_FINAL_DONE 66
#define TDS_CLIENT_BEHIND_FINAL_DONE 67
#define TDS_CLIENT_TOKEN 68 /* token_fault of the client says which, as 1 to 7 */
#define TDS_CLIENT_LOST 69

/* ---- Packets (MS-TDS 2.2.3) */

#define TDS_TO_SERVER 0
#define TDS_TO_CLIENT 1

/* A packet of `length` bytes: its header has 8, and its data are the others. */
struct tds_packet {
    size_t length;
    uint8_t kind;   /* the header's type */
    uint8_t status; /* the header's status; bit 1 is set in a message's last packet */
};

/* The packet at the front of the bytes. TDS_OK: it is there. TDS_WANTS_BYTES: call again with more
 * bytes behind these. 41 to 46: its header is refused. TDS_OUT_OF_RANGE: the packet size isn't 512
 * to 32,767, or the direction none. */
uint8_t tds_packet_read(const uint8_t *bytes, size_t length, uint16_t size, uint8_t direction,
                        struct tds_packet *packet);

/* The packets at the front of the bytes, up to `room` of them in one call: those that tds_packet_read
 * gives one after the other. They stand at the front of `packets`, and `count` says how many; each
 * begins where the one before ends. TDS_OK: the room is full, and there may be more. Else it is what
 * tds_packet_read answers behind them: TDS_WANTS_BYTES, also where no byte is left, or 41 to 46. */
uint8_t tds_packets_read(const uint8_t *bytes, size_t length, uint16_t size, uint8_t direction,
                         struct tds_packet *packets, size_t room, size_t *count);

/* ---- The client */

#define TDS_IDLE 0
#define TDS_SENDING 1
#define TDS_READING 2
#define TDS_CANCELLING 3
#define TDS_BROKEN 4

#define TDS_RESET_NONE 0
#define TDS_RESET_FULL 1             /* RESETCONNECTION */
#define TDS_RESET_KEEP_TRANSACTION 2 /* RESETCONNECTIONSKIPTRAN */

/* The longest message of a request: a batch of 2,000 units. */
#define TDS_MESSAGE_MOST 4022

/* The client's end of one connection. It is a plain value: it may be copied, and there is nothing
 * to free. Read its fields, and write none. */
struct tds_client {
    uint64_t descriptor; /* of the open transaction, as the server told it; 0 for none */
    size_t sent;         /* the bytes of the request's message that are out */
    size_t packets;      /* the packets of the request that are out */
    uint16_t size;       /* the packet size */
    uint8_t stage;       /* TDS_IDLE to TDS_BROKEN */
    uint8_t kind;        /* the type of the request's packets, in TDS_SENDING */
    uint8_t fault;       /* in TDS_BROKEN, what broke it: 1 to 9, as 61 to 69 */
    uint8_t token_fault; /* and of a token's fault which: 1 to 7, as 51 to 57 */
    uint8_t mark;        /* the reset that the next request asks for */
    uint8_t done;        /* the final DONE of the message that comes: 1 it came, 2 with bit 0020 */
    uint8_t columns;     /* the columns that are known inside the message that comes */
};

/* A new client for packets of this size (512 to 32,767): idle, with no transaction and no mark. */
uint8_t tds_client_new(uint16_t size, struct tds_client *client);

/* In idle: lets the next request ask for a reset. Of two marks the stronger one stays. */
uint8_t tds_client_mark_reset(struct tds_client *client, uint8_t reset);

/* In idle: takes a request. Nothing goes out yet. Its message is written to `message`, which has
 * room for `room` bytes (TDS_MESSAGE_MOST always does), and its length to `count`. Keep it until
 * all of it is out. A batch has 1 to 2,000 units of UTF-16; an isolation level is 0 to 5. */
uint8_t tds_client_start_batch(struct tds_client *client, const uint16_t *text, size_t units,
                               uint8_t *message, size_t room, size_t *count);
uint8_t tds_client_start_begin(struct tds_client *client, uint8_t isolation, uint8_t *message,
                               size_t room, size_t *count);

/* The same of a commit and of a rollback. `next` is the isolation level of the transaction that it
 * begins at once, or TDS_NO_NEXT. */
#define TDS_NO_NEXT 255
uint8_t tds_client_start_commit(struct tds_client *client, uint8_t next, uint8_t *message,
                                size_t room, size_t *count);
uint8_t tds_client_start_rollback(struct tds_client *client, uint8_t next, uint8_t *message,
                                  size_t room, size_t *count);

/* In sending: writes the request's next packet to `out`, which needs room for the packet size at
 * most (where it is too short, `count` is the length of this packet). TDS_MORE or TDS_LAST. */
uint8_t tds_client_send(struct tds_client *client, const uint8_t *message, size_t length,
                        uint8_t *out, size_t room, size_t *count);

/* At any time: cancels what is underway. TDS_ASKED: an attention was written to `out` (16 bytes at
 * most); send it, and take packets until TDS_ACKNOWLEDGED. */
uint8_t tds_client_cancel(struct tds_client *client, uint8_t *out, size_t room, size_t *count);

/* Takes one packet of an answer, from its first byte to its last. TDS_MORE (in cancelling also where
 * the answer has ended, and its acknowledgement is still to come), TDS_FINISHED or
 * TDS_ACKNOWLEDGED. 61 to 69: the client is broken by this packet, nothing of it is told, and each
 * later packet is answered so. 41 to 46: the packet's header is wrong; the client is as it was, but
 * nothing behind it can be read, so call tds_client_lost. In reading, its tokens but
 * the ENVCHANGEs are the caller's, and are read by tds_token_next; in cancelling none is. */
uint8_t tds_client_take(struct tds_client *client, const uint8_t *packet, size_t length);

/* Any request, sent in parts (MS-TDS 2.2.1). What waits for a packet lies in `kept`, which has room
 * for a packet's data, its size less 8 bytes; `out` has room for a packet. The last packet of a
 * message is known by nothing but its end, so up to a packet's data wait until tds_client_finish.
 * After a cancel nothing that waits is sent. */
#define TDS_MESSAGE_BATCH 1        /* a batch of statements */
#define TDS_MESSAGE_RPC 3          /* a call of procedures */
#define TDS_MESSAGE_BULK 7         /* the rows of a bulk load */
#define TDS_MESSAGE_TRANSACTION 14 /* a request to the transaction manager */

/* In idle: begins a message. ALL_HEADERS of it are the library's, where it has them: they are
 * written to `kept`, and `count` says how many bytes wait (22, or 0 for a bulk load). */
uint8_t tds_client_start_message(struct tds_client *client, uint8_t kind, uint8_t *kept, size_t room,
                                 size_t *count);

/* In sending: puts bytes of the message's body behind those that wait. TDS_OK: all of them wait.
 * TDS_MORE: a packet is full and was written to `out`, `count` bytes; send it, and call again with
 * the bytes behind the `taken` ones. `waiting` says how many bytes wait, before and after. */
uint8_t tds_client_put(struct tds_client *client, uint8_t *kept, size_t kept_room, size_t *waiting,
                       const uint8_t *bytes, size_t length, size_t *taken, uint8_t *out, size_t room,
                       size_t *count);

/* Ends the message: the `waiting` bytes of `kept` go out in its last packet, written to `out`. The
 * client reads the answer then. */
uint8_t tds_client_finish(struct tds_client *client, const uint8_t *kept, size_t waiting, uint8_t *out,
                          size_t room, size_t *count);

/* In idle: sends a message that one packet has whole. It is tds_client_start_message,
 * tds_client_put of this body and tds_client_finish in one call: the packet is written to `out`,
 * `count` bytes; send it. The client reads the answer then. TDS_OUT_OF_RANGE, in whatever stage:
 * `kind` is none, or ALL_HEADERS and the body are longer than a packet's data, its size less 8
 * bytes; then the three calls are for it. */
uint8_t tds_client_ask(struct tds_client *client, uint8_t kind, const uint8_t *body, size_t length,
                       uint8_t *out, size_t room, size_t *count);

/* For a driver that reads the tokens of any server by itself: it tells the client of each one, in
 * their order, and of the end of each message (behind the packet whose status has bit 1), in place
 * of tds_client_take. TDS_TELL or TDS_DROP says whether the caller that asked is told of the token.
 * 61 to 69: the client is broken. tds_client_hear of tds_wire.h does it for a whole packet. */

/* An ENVCHANGE of a transaction or a reset (MS-TDS 2.2.7.9): 8, 9, 10 or 18; 11 counts as a begin,
 * 12 and 17 as an end. An 18 that no request asked for is a full reset's. `descriptor` is the new value
 * of 8 and 11, and else the old one. */
uint8_t tds_client_heard_change(struct tds_client *client, uint8_t change, uint64_t descriptor);

/* A DONE (0xFD), DONEPROC (0xFE) or DONEINPROC (0xFF) with this status. */
uint8_t tds_client_heard_done(struct tds_client *client, uint8_t kind, uint16_t status);

/* Any other token. */
uint8_t tds_client_heard_other(struct tds_client *client);

/* The end of a message. TDS_FINISHED, TDS_ACKNOWLEDGED or, in cancelling, TDS_MORE: the
 * acknowledgement is still to come. */
uint8_t tds_client_message_ended(struct tds_client *client);

/* The connection is lost: the client is broken, unless it is broken already. */
uint8_t tds_client_lost(struct tds_client *client);

/* ---- Tokens (MS-TDS 2.2.7) */

#define TDS_INFO 0xAB
#define TDS_ERROR 0xAA
#define TDS_RETURNSTATUS 0x79
#define TDS_COLMETADATA 0x81
#define TDS_ROW 0xD1
#define TDS_ENVCHANGE 0xE3
#define TDS_DONE 0xFD

#define TDS_BEGIN 8
#define TDS_COMMIT 9
#define TDS_ROLLBACK 10
#define TDS_RESET_DONE 18

/* A place in a packet's data: the first is {0, columns}, with the `columns` that the client had
 * before it took the packet. */
struct tds_cursor {
    size_t at;
    uint8_t columns;
};

/* A token. A field that its kind does not have is 0. Its bytes begin at `start` of the data, and
 * texts, names of columns and values of a row are read from there.
 *   ROW: 4 bytes a value from start + 1 on, signed, the low byte first.
 *   INFO, ERROR: from start + 9 on, the count of the text's units (2 bytes) and the units; then the
 *     server's and the procedure's name, each with its count before it (1 byte).
 *   COLMETADATA: from start + 3 on, of each column: its user type (4 bytes), its flags (2), its type
 *     (1, INT4), the count of its name's units (1) and the units. */
struct tds_token {
    uint64_t value;   /* DONE: its rows. ENVCHANGE: the descriptor. COLMETADATA: its columns. ROW: its values */
    size_t start;
    int32_t number;   /* INFO, ERROR: the number. RETURNSTATUS: the value */
    int32_t line;     /* INFO, ERROR */
    uint16_t status;  /* DONE */
    uint16_t cur_cmd; /* DONE */
    uint8_t kind;     /* TDS_INFO to TDS_DONE */
    uint8_t state;    /* INFO, ERROR */
    uint8_t severity; /* INFO, ERROR: the class */
    uint8_t change;   /* ENVCHANGE: TDS_BEGIN to TDS_RESET_DONE */
};

/* Reads the token at the cursor of these data, and goes on behind it. TDS_OK: it is in `token`.
 * TDS_END: the data are at their end. 51 to 57: they spell no token. Unless it is TDS_OK, `token`
 * is as it was. */
uint8_t tds_token_next(const uint8_t *data, size_t length, struct tds_cursor *cursor,
                       struct tds_token *token);

/* The same of up to `room` tokens in one call: those that tds_token_next gives one after the other.
 * They stand at the front of `tokens`, and `count` says how many. TDS_OK: the room is full, and
 * there may be more. TDS_END: these were the last ones. 51 to 57: behind these the data spell no
 * token. In each case the tokens that were read are there, and the cursor stands where
 * tds_token_next would leave it. Without room (0) nothing is read. */
uint8_t tds_tokens_next(const uint8_t *data, size_t length, struct tds_cursor *cursor,
                        struct tds_token *tokens, size_t room, size_t *count);

/* Rows one behind the other, all of the same width: each has 1 + 4 * columns bytes, its token byte
 * and its values. */
struct tds_rows {
    size_t start;   /* the first byte of the first row in the data */
    size_t count;   /* how many rows there are */
    size_t columns; /* how many values each has */
};

/* Finds all the rows at the cursor, and goes on behind them. TDS_OK, also where there is none, or
 * one that is cut or whose columns aren't known: `count` is 0 then, and tds_token_next reads what is
 * there, or says why not. */
uint8_t tds_rows_next(const uint8_t *data, size_t length, struct tds_cursor *cursor,
                      struct tds_rows *rows);

#ifdef __cplusplus
}
#endif

#endif
