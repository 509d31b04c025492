/* A table of connections that callers share, in front of any server: who holds each one, and what
 * becomes of it. C99 and C++. The clients in it are
 * those of tds.h. What a caller owes is said there, and beside it:
 *  - `seats` is the same array at every call, with room for `most` connections, all of it written once
 *    (`= {0}`). A table goes with its array: neither is used with another, nor is an old copy of either.
 *  - Of a seat only its client is the caller's, and by the calls of tds.h alone: to log in, or to do there
 *    what the calls by lease don't; he counts `asked` then. Any other value in it is taken for what it
 *    says: no number is refused, and none is undefined.
 *  - A seat may move when a call answers TDS_SERVICE_CLOSED or tds_service_lost is called. Keep sockets
 *    and buffers by the connection's number, and ask for its seat by tds_service_at or
 *    tds_service_find, each time.
 * No call takes memory, and each is proved to be the service's call of the same name (of Rattle's
 * crate tds_service) on the table that the values are; tds_service_came, _heard_change, _heard_done,
 * _heard_other, _message_ended and _hear are its call `came`. From 20 on nothing was done and nothing changed,
 * but for 61 to 76, which break the client.
 */
#ifndef TDS_SERVICE_H
#define TDS_SERVICE_H

#include "tds.h"
#include "tds_wire.h"

#ifdef __cplusplus
extern "C" {
#endif

/* ---- What a call answers: TDS_OK (0), or one of these */

#define TDS_SERVICE_FREE 1     /* the connection may be lent again */
#define TDS_SERVICE_DRAINING 2 /* it is free once its acknowledgement has come: tds_service_drained */
#define TDS_SERVICE_CLOSED 3   /* it is in the table no longer: close its socket */

#define TDS_SERVICE_NO_TABLE 20 /* the table has more connections than the array has room for */
/* TDS_NO_ROOM (21): `out` or `kept` is too short, `count` is wanted */
#define TDS_SERVICE_USED_UP 22  /* 2^64 - 1 leases, connections or requests were given; 2^63 packets */
/* TDS_OUT_OF_RANGE (23): no message, change or DONE has this number, or more waits than a packet holds */
/* TDS_NOT_IDLE (31), TDS_NOT_SENDING (32), TDS_IS_BROKEN (33): the lease's connection refuses it now */
#define TDS_SERVICE_UNKNOWN 34  /* there is no such lease, ticket or connection */
/* TDS_NO_MEMORY (22): in the C file for machines of 32 bits, or with the high byte first, whose calls
 * take memory and give it back */
#define TDS_SERVICE_ALL_IN_USE 35 /* as many connections are there as may be, and none can be lent */
#define TDS_SERVICE_NOT_NOW 36  /* the connection isn't idle, or isn't so that this can be done */

/* TDS_CLIENT_ANSWER_IN_IDLE to TDS_CLIENT_LOST (61 to 69, not 65, 67 and 68): the server broke
 * the protocol. So it did by these: */
#define TDS_SERVICE_CUT 75        /* its message ended inside a token */
#define TDS_SERVICE_NO_RESET 76   /* a request asked for a reset, and its answer tells of none */

/* ---- The table */

#define TDS_PLACE_FREE 0
#define TDS_PLACE_LENT 1
#define TDS_PLACE_CLEANING 2
#define TDS_PLACE_KEPT 3
#define TDS_PLACE_DRAINING 4

/* A connection. */
struct tds_seat {
    struct tds_client client;
    uint64_t number; /* the connection's: 1, 2, .. */
    uint64_t holder; /* the number of the lease or the ticket that holds it */
    uint64_t asked;  /* how many requests were asked on it, which are their numbers */
    uint8_t place;
};

/* A table. All fields but `size`, the packet size of new clients, begin with 0. */
struct tds_service {
    uint64_t last, given; /* the numbers of the newest connection, and of the newest lease or ticket */
    size_t count;         /* the connections: they stand at the array's front */
    uint16_t size;
};

/* A lease. */
struct tds_lent {
    uint64_t lease, number;
    uint8_t had; /* 0: nobody had the connection before; open it and log in */
};

/* Lends a free connection that is idle, and marks its client for a full reset; else a new one, where
 * fewer are there than the array has room for: its client is new (TDS_IDLE), and it is to be opened
 * and logged in. TDS_OK, or TDS_SERVICE_ALL_IN_USE. */
uint8_t tds_service_lease(struct tds_service *service, struct tds_seat *seats, size_t most,
                          struct tds_lent *lent);

/* Where the connection of a lease, or of a number, stands in the array: for what tds.h has and this
 * hasn't. TDS_OK, or TDS_SERVICE_UNKNOWN. */
uint8_t tds_service_find(const struct tds_service *service, const struct tds_seat *seats, size_t most,
                         uint64_t lease, size_t *index);
uint8_t tds_service_at(const struct tds_service *service, const struct tds_seat *seats, size_t most,
                       uint64_t number, size_t *index);

/* ---- What a lease asks. Behind its end each of these is TDS_SERVICE_UNKNOWN, and nothing is done. */

/* A request that was asked: its connection's number, and its own there: 1, 2, .. */
struct tds_asked {
    uint64_t number, request;
};

/* Begins a request of any kind (TDS_MESSAGE_BATCH and so on). As of tds_client_start_message, its headers
 * are written to `kept`, which is for its connection alone and has room for the packet size less 8;
 * `count` bytes wait there. The body goes in by tds_service_put, the end by tds_service_finish. TDS_OK. */
uint8_t tds_service_ask(const struct tds_service *service, struct tds_seat *seats, size_t most,
                        uint64_t lease, uint8_t kind, uint8_t *kept, size_t room, size_t *count,
                        struct tds_asked *asked);

/* Puts bytes of the body behind the `waiting` ones of `kept`, as tds_client_put. TDS_OK: all of them
 * wait. TDS_MORE: a packet was written to `out`, which has room for one; send it, and put those behind
 * the `taken` ones again. */
uint8_t tds_service_put(const struct tds_service *service, struct tds_seat *seats, size_t most,
                        uint64_t lease, uint8_t *kept, size_t kept_room, size_t *waiting,
                        const uint8_t *bytes, size_t length, size_t *taken, uint8_t *out, size_t room,
                        size_t *count);

/* Ends the request: the `waiting` bytes of `kept` go out in its last packet, written to `out`. TDS_OK. */
uint8_t tds_service_finish(const struct tds_service *service, struct tds_seat *seats, size_t most,
                           uint64_t lease, const uint8_t *kept, size_t waiting, uint8_t *out,
                           size_t room, size_t *count);

/* Cancels what is underway, as tds_client_cancel: TDS_NOTHING, TDS_ALREADY, TDS_UNSENT, or TDS_ASKED:
 * send what was written to `out`, 16 bytes at most. */
uint8_t tds_service_cancel(const struct tds_service *service, struct tds_seat *seats, size_t most,
                           uint64_t lease, uint8_t *out, size_t room, size_t *count);

/* ---- What comes on the connection of a number, whoever holds it. */

/* Whose it is: the lease that holds the connection, 0 where none does, and its newest request. */
struct tds_whose {
    uint64_t lease, request;
};

/* A token came, as tds_wire_next gave it (its kind, what it tells, and where it stands are in it).
 * TDS_TELL: it is that request's. TDS_DROP: nobody is told of it: the request was cancelled, or it is
 * a change of a transaction or a reset. Where tds_wire_next refuses bytes, or a packet's header is
 * wrong, nothing behind it can be read: tds_service_lost. */
uint8_t tds_service_came(const struct tds_service *service, struct tds_seat *seats, size_t most,
                         uint64_t number, const struct tds_wire_token *token, struct tds_whose *whose);

/* The same for a reader of your own: an ENVCHANGE of a transaction or a reset, a DONE, any other token,
 * by what tds_client_heard_change, _done and _other take. */
uint8_t tds_service_heard_change(const struct tds_service *service, struct tds_seat *seats, size_t most,
                                 uint64_t number, uint8_t change, uint64_t descriptor,
                                 struct tds_whose *whose);
uint8_t tds_service_heard_done(const struct tds_service *service, struct tds_seat *seats, size_t most,
                               uint64_t number, uint8_t kind, uint16_t status,
                               struct tds_whose *whose);
uint8_t tds_service_heard_other(const struct tds_service *service, struct tds_seat *seats, size_t most,
                                uint64_t number, struct tds_whose *whose);

/* A message has ended (behind its packet whose status has bit 1), between two tokens, or inside one
 * where `cut` isn't 0. TDS_FINISHED: the request has its whole answer. TDS_ACKNOWLEDGED: its cancel is
 * acknowledged, and a connection that drained (whose->lease is 0) is free. TDS_MORE: the
 * acknowledgement is still to come. */
uint8_t tds_service_message_ended(const struct tds_service *service, struct tds_seat *seats, size_t most,
                                  uint64_t number, uint8_t cut, struct tds_whose *whose);

/* All that in one call, for the data of a packet of an answer (type 04, behind its header) that came on the
 * connection of this number, or for those of them that are left: of each token that ends there the table
 * hears what it says, as by tds_service_came, and those that its caller is told of are written to the front
 * of `tokens`, `count` of them; all are the request's that is written to `whose`. `taken`, `ends` and the
 * answers are those of tds_client_hear (tds_wire.h): TDS_TELL, TDS_OK, and where the message ends
 * TDS_FINISHED, TDS_ACKNOWLEDGED, TDS_MORE. Behind 61 to 76 the connection is broken, and the tokens before
 * were heard: tds_service_lost. The walk is the connection's own; where it is none, TDS_WIRE_NO_WALK (20). */
uint8_t tds_service_hear(const struct tds_service *service, struct tds_seat *seats, size_t most,
                         uint64_t number, struct tds_wire *walk, struct tds_wire_memory *memory,
                         const uint8_t *bytes, size_t length, uint8_t ends, size_t *taken,
                         struct tds_wire_token *tokens, size_t room, size_t *count,
                         struct tds_whose *whose);

/* ---- The end of a lease */

/* Ends a lease. What is underway is cancelled, and what is to be sent for that is written to `out` (16
 * bytes at most), for the connection whose number is written. TDS_SERVICE_FREE, _DRAINING, _CLOSED. */
uint8_t tds_service_give_back(struct tds_service *service, struct tds_seat *seats, size_t most,
                              uint64_t lease, uint8_t *out, size_t room, size_t *count,
                              uint64_t *number);

/* For a connection that drains, each time that its client has taken something by a call of tds.h (behind
 * those above it isn't needed): TDS_SERVICE_FREE once the client is idle, else TDS_SERVICE_DRAINING.
 * TDS_SERVICE_NOT_NOW where it doesn't drain. */
uint8_t tds_service_drained(struct tds_service *service, struct tds_seat *seats, size_t most,
                            uint64_t number);

/* The connection of this number is lost: it is in the table no longer, and its lease unknown. */
uint8_t tds_service_lost(struct tds_service *service, struct tds_seat *seats, size_t most,
                         uint64_t number);

/* Keeps a connection that is idle in a transaction, for a ticket; lends it again by that, with the
 * transaction; gives it up. Each spends the lease or the ticket that it is called with. */
uint8_t tds_service_keep(struct tds_service *service, struct tds_seat *seats, size_t most,
                         uint64_t lease, uint64_t *ticket);
uint8_t tds_service_resume(struct tds_service *service, struct tds_seat *seats, size_t most,
                           uint64_t ticket, struct tds_lent *lent);
uint8_t tds_service_abandon(struct tds_service *service, struct tds_seat *seats, size_t most,
                            uint64_t ticket, uint64_t *number);

/* Lends the connection of this number, if it is free and idle, to be cleaned: ask a request on it (a
 * batch that does nothing), which asks for a full reset. Once it is answered, tds_service_cleaned ends
 * that lease: TDS_SERVICE_FREE where the reset was done and no transaction is open, else
 * TDS_SERVICE_CLOSED. */
uint8_t tds_service_clean(struct tds_service *service, struct tds_seat *seats, size_t most,
                          uint64_t number, struct tds_lent *lent);
uint8_t tds_service_cleaned(struct tds_service *service, struct tds_seat *seats, size_t most,
                            uint64_t lease, uint64_t *number);

#ifdef __cplusplus
}
#endif

#endif
