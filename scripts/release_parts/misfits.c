/* What no call may get, in each of its places: null where an object is wanted or a length isn't 0, and a length that
 * nothing can have. Each is answered MOUKTELF_MISFIT, and nothing is written. Null with a length of 0 is taken. */
#include "mouktelf.h"
#include <stdio.h>
#include <string.h>

static unsigned count, wrong;

static void is(const char *what, int answer, int wanted) {
    count++;
    if (answer == wanted) return;
    wrong++;
    printf("%s: answers %d, and %d is wanted\n", what, answer, wanted);
}
#define MISFIT(call) is(#call, call, MOUKTELF_MISFIT)

#define LONG ((size_t)PTRDIFF_MAX + 1)

static struct tds_client client;
static struct tds_packet packet;
static struct tds_cursor cursor;
static struct tds_token token;
static struct tds_rows rows;
static uint8_t bytes[64];
static uint16_t text[4];
static size_t n = 77;

static void of_packets(void) {
    MISFIT(tds_packet_read(NULL, 1, 512, 1, &packet));
    MISFIT(tds_packet_read(bytes, LONG, 512, 1, &packet));
    MISFIT(tds_packet_read(bytes, 8, 512, 1, NULL));
    MISFIT(tds_packets_read(NULL, 1, 512, 1, &packet, 1, &n));
    MISFIT(tds_packets_read(bytes, 8, 512, 1, NULL, 1, &n));
    MISFIT(tds_packets_read(bytes, 8, 512, 1, &packet, LONG / sizeof packet, &n));
    MISFIT(tds_packets_read(bytes, 8, 512, 1, &packet, 1, NULL));
    is("no bytes", tds_packet_read(NULL, 0, 512, 1, &packet), TDS_WANTS_BYTES);
}

static void of_clients(void) {
    MISFIT(tds_client_new(512, NULL));
    is("a client", tds_client_new(512, &client), TDS_OK);
    MISFIT(tds_client_mark_reset(NULL, 1));
    MISFIT(tds_client_start_batch(NULL, text, 4, bytes, 64, &n));
    MISFIT(tds_client_start_batch(&client, NULL, 4, bytes, 64, &n));
    MISFIT(tds_client_start_batch(&client, text, LONG / 2, bytes, 64, &n));
    MISFIT(tds_client_start_batch(&client, text, 4, NULL, 64, &n));
    MISFIT(tds_client_start_batch(&client, text, 4, bytes, 64, NULL));
    MISFIT(tds_client_start_begin(NULL, 0, bytes, 64, &n));
    MISFIT(tds_client_start_begin(&client, 0, NULL, 64, &n));
    MISFIT(tds_client_start_begin(&client, 0, bytes, 64, NULL));
    MISFIT(tds_client_start_commit(NULL, 0, bytes, 64, &n));
    MISFIT(tds_client_start_commit(&client, 0, NULL, 64, &n));
    MISFIT(tds_client_start_commit(&client, 0, bytes, 64, NULL));
    MISFIT(tds_client_start_rollback(NULL, 0, bytes, 64, &n));
    MISFIT(tds_client_start_rollback(&client, 0, NULL, 64, &n));
    MISFIT(tds_client_start_rollback(&client, 0, bytes, 64, NULL));
    MISFIT(tds_client_send(NULL, bytes, 8, bytes + 8, 56, &n));
    MISFIT(tds_client_send(&client, NULL, 8, bytes, 64, &n));
    MISFIT(tds_client_send(&client, bytes, 8, NULL, 64, &n));
    MISFIT(tds_client_send(&client, bytes, 8, bytes + 8, 56, NULL));
    MISFIT(tds_client_cancel(NULL, bytes, 64, &n));
    MISFIT(tds_client_cancel(&client, NULL, 64, &n));
    MISFIT(tds_client_cancel(&client, bytes, 64, NULL));
    MISFIT(tds_client_take(NULL, bytes, 8));
    MISFIT(tds_client_take(&client, NULL, 8));
    MISFIT(tds_client_take(&client, bytes, LONG));
    is("no room", tds_client_start_begin(&client, 0, NULL, 0, &n), TDS_NO_ROOM);
    n = 77;
}

static void of_streams(void) {
    size_t waiting = 0, taken = 0;
    MISFIT(tds_client_start_message(NULL, 1, bytes, 64, &n));
    MISFIT(tds_client_start_message(&client, 1, NULL, 64, &n));
    MISFIT(tds_client_start_message(&client, 1, bytes, 64, NULL));
    MISFIT(tds_client_put(NULL, bytes, 8, &waiting, bytes + 8, 8, &taken, bytes + 16, 48, &n));
    MISFIT(tds_client_put(&client, NULL, 8, &waiting, bytes + 8, 8, &taken, bytes + 16, 48, &n));
    MISFIT(tds_client_put(&client, bytes, 8, NULL, bytes + 8, 8, &taken, bytes + 16, 48, &n));
    MISFIT(tds_client_put(&client, bytes, 8, &waiting, NULL, 8, &taken, bytes + 16, 48, &n));
    MISFIT(tds_client_put(&client, bytes, 8, &waiting, bytes + 8, 8, NULL, bytes + 16, 48, &n));
    MISFIT(tds_client_put(&client, bytes, 8, &waiting, bytes + 8, 8, &taken, NULL, 48, &n));
    MISFIT(tds_client_put(&client, bytes, 8, &waiting, bytes + 8, 8, &taken, bytes + 16, 48, NULL));
    MISFIT(tds_client_finish(NULL, bytes, 8, bytes + 8, 56, &n));
    MISFIT(tds_client_finish(&client, NULL, 8, bytes, 64, &n));
    MISFIT(tds_client_finish(&client, bytes, 8, NULL, 64, &n));
    MISFIT(tds_client_finish(&client, bytes, 8, bytes + 8, 56, NULL));
    MISFIT(tds_client_ask(NULL, 1, bytes, 8, bytes + 8, 56, &n));
    MISFIT(tds_client_ask(&client, 1, NULL, 8, bytes, 64, &n));
    MISFIT(tds_client_ask(&client, 1, bytes, LONG, bytes, 64, &n));
    MISFIT(tds_client_ask(&client, 1, bytes, 8, NULL, 64, &n));
    MISFIT(tds_client_ask(&client, 1, bytes, 8, bytes + 8, 56, NULL));
    MISFIT(tds_client_heard_change(NULL, 8, 1));
    MISFIT(tds_client_heard_done(NULL, 0xfd, 0));
    MISFIT(tds_client_heard_other(NULL));
    MISFIT(tds_client_message_ended(NULL));
    MISFIT(tds_client_lost(NULL));
}

static void of_tokens(void) {
    MISFIT(tds_token_next(NULL, 8, &cursor, &token));
    MISFIT(tds_token_next(bytes, 8, NULL, &token));
    MISFIT(tds_token_next(bytes, 8, &cursor, NULL));
    MISFIT(tds_tokens_next(NULL, 8, &cursor, &token, 1, &n));
    MISFIT(tds_tokens_next(bytes, 8, NULL, &token, 1, &n));
    MISFIT(tds_tokens_next(bytes, 8, &cursor, NULL, 1, &n));
    MISFIT(tds_tokens_next(bytes, 8, &cursor, &token, 1, NULL));
    MISFIT(tds_rows_next(NULL, 8, &cursor, &rows));
    MISFIT(tds_rows_next(bytes, 8, NULL, &rows));
    MISFIT(tds_rows_next(bytes, 8, &cursor, NULL));
    is("no data", tds_token_next(NULL, 0, &cursor, &token), TDS_END);
}

static void of_rows(void) {
    static struct tds_column column;
    static struct tds_place place;
    size_t taken = 0;
    MISFIT(tds_places_of_rows(NULL, 1, bytes, 8, &place, 1, &n, &taken));
    MISFIT(tds_places_of_rows(&column, LONG / sizeof column + 1, bytes, 8, &place, 1, &n, &taken));
    MISFIT(tds_places_of_rows(&column, 1, NULL, 8, &place, 1, &n, &taken));
    MISFIT(tds_places_of_rows(&column, 1, bytes, LONG, &place, 1, &n, &taken));
    MISFIT(tds_places_of_rows(&column, 1, bytes, 8, NULL, 1, &n, &taken));
    MISFIT(tds_places_of_rows(&column, 1, bytes, 8, &place, LONG / sizeof place + 1, &n, &taken));
    MISFIT(tds_places_of_rows(&column, 1, bytes, 8, &place, 1, NULL, &taken));
    MISFIT(tds_places_of_rows(&column, 1, bytes, 8, &place, 1, &n, NULL));
    MISFIT(tds_row_places(&column, 1, bytes, 8, NULL, 1, &taken));
}

static void of_walks(void) {
    static struct tds_wire walk;
    static struct tds_wire_memory memory;
    static struct tds_wire_token found;
    size_t taken = 0;
    MISFIT(tds_wire_new(16, 0, 0, NULL, &memory));
    MISFIT(tds_wire_new(16, 0, 0, &walk, NULL));
    is("a walk", tds_wire_new(16, 0, 0, &walk, &memory), TDS_OK);
    MISFIT(tds_wire_next(NULL, &memory, bytes, 8, &n, &found));
    MISFIT(tds_wire_next(&walk, NULL, bytes, 8, &n, &found));
    MISFIT(tds_wire_next(&walk, &memory, NULL, 8, &n, &found));
    MISFIT(tds_wire_next(&walk, &memory, bytes, 8, NULL, &found));
    MISFIT(tds_wire_next(&walk, &memory, bytes, 8, &n, NULL));
    MISFIT(tds_wire_is_between(NULL, &memory));
    MISFIT(tds_wire_is_between(&walk, NULL));
    MISFIT(tds_wire_restart(NULL, &memory));
    MISFIT(tds_wire_restart(&walk, NULL));
    of_rows();
    MISFIT(tds_client_hear(NULL, &walk, &memory, bytes, 8, 0, &taken, &found, 1, &n));
    MISFIT(tds_client_hear(&client, NULL, &memory, bytes, 8, 0, &taken, &found, 1, &n));
    MISFIT(tds_client_hear(&client, &walk, NULL, bytes, 8, 0, &taken, &found, 1, &n));
    MISFIT(tds_client_hear(&client, &walk, &memory, NULL, 8, 0, &taken, &found, 1, &n));
    MISFIT(tds_client_hear(&client, &walk, &memory, bytes, 8, 0, NULL, &found, 1, &n));
    MISFIT(tds_client_hear(&client, &walk, &memory, bytes, 8, 0, &taken, NULL, 1, &n));
    MISFIT(tds_client_hear(&client, &walk, &memory, bytes, 8, 0, &taken, &found, 1, NULL));
}

static void of_services(void) {
    struct tds_service service = {0, 0, 0, 512};
    struct tds_seat seat = {{0}, 0, 0, 0, 0};
    size_t waiting = 0, taken = 0;
    struct tds_lent lent = {0, 0, 0};
    struct tds_asked asked = {0, 0};
    struct tds_whose whose = {0, 0};
    struct tds_wire_token found = {0};
    uint64_t number = 0;
    MISFIT(tds_service_lease(NULL, &seat, 1, &lent));
    MISFIT(tds_service_lease(&service, NULL, 1, &lent));
    MISFIT(tds_service_lease(&service, &seat, LONG / sizeof seat + 1, &lent));
    MISFIT(tds_service_lease(&service, &seat, 1, NULL));
    MISFIT(tds_service_find(NULL, &seat, 1, 1, &n));
    MISFIT(tds_service_find(&service, NULL, 1, 1, &n));
    MISFIT(tds_service_find(&service, &seat, 1, 1, NULL));
    MISFIT(tds_service_at(&service, NULL, 1, 1, &n));
    MISFIT(tds_service_ask(&service, NULL, 1, 1, 1, bytes, 64, &n, &asked));
    MISFIT(tds_service_ask(&service, &seat, 1, 1, 1, NULL, 64, &n, &asked));
    MISFIT(tds_service_ask(&service, &seat, 1, 1, 1, bytes, 64, &n, NULL));
    MISFIT(tds_service_put(&service, NULL, 1, 1, bytes, 8, &waiting, bytes + 8, 8, &taken, bytes + 16, 48, &n));
    MISFIT(tds_service_put(&service, &seat, 1, 1, NULL, 8, &waiting, bytes + 8, 8, &taken, bytes + 16, 48, &n));
    MISFIT(tds_service_put(&service, &seat, 1, 1, bytes, 8, NULL, bytes + 8, 8, &taken, bytes + 16, 48, &n));
    MISFIT(tds_service_put(&service, &seat, 1, 1, bytes, 8, &waiting, NULL, 8, &taken, bytes + 16, 48, &n));
    MISFIT(tds_service_put(&service, &seat, 1, 1, bytes, 8, &waiting, bytes + 8, 8, NULL, bytes + 16, 48, &n));
    MISFIT(tds_service_put(&service, &seat, 1, 1, bytes, 8, &waiting, bytes + 8, 8, &taken, NULL, 48, &n));
    MISFIT(tds_service_finish(&service, &seat, 1, 1, NULL, 64, bytes, 64, &n));
    MISFIT(tds_service_finish(&service, &seat, 1, 1, bytes, 64, NULL, 64, &n));
    MISFIT(tds_service_cancel(&service, &seat, 1, 1, NULL, 64, &n));
    MISFIT(tds_service_cancel(&service, &seat, 1, 1, bytes, 64, NULL));
    MISFIT(tds_service_came(&service, &seat, 1, 1, NULL, &whose));
    MISFIT(tds_service_came(&service, &seat, 1, 1, &found, NULL));
    MISFIT(tds_service_heard_change(&service, NULL, 1, 1, 8, 1, &whose));
    MISFIT(tds_service_heard_done(&service, &seat, 1, 1, 0xFD, 0, NULL));
    MISFIT(tds_service_heard_other(NULL, &seat, 1, 1, &whose));
    MISFIT(tds_service_message_ended(&service, &seat, 1, 1, 0, NULL));
    MISFIT(tds_service_give_back(&service, NULL, 1, 1, bytes, 64, &n, &number));
    MISFIT(tds_service_give_back(&service, &seat, 1, 1, NULL, 64, &n, &number));
    MISFIT(tds_service_give_back(&service, &seat, 1, 1, bytes, 64, NULL, &number));
    MISFIT(tds_service_give_back(&service, &seat, 1, 1, bytes, 64, &n, NULL));
    MISFIT(tds_service_drained(&service, NULL, 1, 1));
    MISFIT(tds_service_lost(NULL, &seat, 1, 1));
    MISFIT(tds_service_keep(&service, &seat, 1, 1, NULL));
    MISFIT(tds_service_resume(&service, &seat, 1, 1, NULL));
    MISFIT(tds_service_abandon(&service, &seat, 1, 1, NULL));
    MISFIT(tds_service_clean(&service, &seat, 1, 1, NULL));
    MISFIT(tds_service_cleaned(&service, &seat, 1, 1, NULL));
    /* a lease that is spent, or was never given */
    is("no such lease", tds_service_find(&service, &seat, 1, 1, &n), TDS_SERVICE_UNKNOWN);
    is("no room for any", tds_service_lease(&service, NULL, 0, &lent), TDS_SERVICE_ALL_IN_USE);
}

/* What another file or library has. */
#ifdef WITH_ALL
static void of_judge_and_player(void) {
    struct tds_judge_limits limits = {0, 16, 0, 0};
    struct tds_judge_piece piece = {0, 0, TDS_JUDGE_CLOSED};
    struct tds_judge_finding finding;
    MISFIT(tds_judge(NULL, &piece, 1, bytes, 8, &finding, 1, &n));
    MISFIT(tds_judge(&limits, NULL, 1, bytes, 8, &finding, 1, &n));
    MISFIT(tds_judge(&limits, &piece, 1, NULL, 8, &finding, 1, &n));
    MISFIT(tds_judge(&limits, &piece, 1, bytes, 8, NULL, 1, &n));
    MISFIT(tds_judge(&limits, &piece, 1, bytes, 8, &finding, LONG / sizeof finding, &n));
    MISFIT(tds_judge(&limits, &piece, 1, bytes, 8, &finding, 1, NULL));
    is("nothing to judge", tds_judge(&limits, NULL, 0, NULL, 0, NULL, 0, &n), TDS_JUDGED);
    n = 77;
    MISFIT(tds_play(NULL, 8, bytes, 64, &n));
    MISFIT(tds_play(bytes, 8, NULL, 64, &n));
    MISFIT(tds_play(bytes, 8, bytes + 8, 56, NULL));
}
#endif

int main(void) {
    static const uint8_t none[64];
    of_packets();
    of_clients();
    of_streams();
    of_tokens();
    of_walks();
    of_services();
    n = 77;
#ifdef WITH_ALL
    of_judge_and_player();
#endif
    is("the client is as it was", client.stage == 0 && client.size == 512, 1);
    is("no count was written", n == 77, 1);
    is("nothing was written", memcmp(bytes, none, 64), 0);
    printf("%u misfits, %u wrong\n", count, wrong);
    return wrong != 0;
}
