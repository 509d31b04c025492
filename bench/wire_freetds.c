/* Reads answers by FreeTDS's CT-Library, all rows of each, and prints the nanoseconds of the processor that it took and the rows.

   usage: wire_freetds SERVER ANSWER TIMES      asks a server of bench/wire_readers.py for that answer, so many times */
#include <stdio.h>
#include <stdlib.h>
#include <ctpublic.h>
#include <sys/resource.h>

static CS_CONTEXT *context;

static CS_RETCODE ignored(CS_CONTEXT *of, CS_CONNECTION *link, void *message)
{
    (void)of, (void)link, (void)message;
    return CS_SUCCEED;
}

static CS_CONNECTION *opened(char *server)
{
    CS_CONNECTION *link;
    if (ct_con_alloc(context, &link) != CS_SUCCEED)
        return NULL;
    ct_con_props(link, CS_SET, CS_USERNAME, "u", CS_NULLTERM, NULL);
    ct_con_props(link, CS_SET, CS_PASSWORD, "p", CS_NULLTERM, NULL);
    return ct_connect(link, server, CS_NULLTERM) == CS_SUCCEED ? link : NULL;
}

/* The time of the processor that this process has had. */
static long long taken(void)
{
    struct rusage use;
    getrusage(RUSAGE_SELF, &use);
    return (use.ru_utime.tv_sec + use.ru_stime.tv_sec) * 1000000000LL + (use.ru_utime.tv_usec + use.ru_stime.tv_usec) * 1000LL;
}

/* Asks for an answer and goes over its rows. No column is bound, so no value is converted for the caller. */
static long read_answer(CS_CONNECTION *link, char *answer)
{
    CS_COMMAND *command;
    CS_INT kind, got;
    CS_RETCODE code;
    long rows = 0;
    ct_cmd_alloc(link, &command);
    ct_command(command, CS_LANG_CMD, answer, CS_NULLTERM, CS_UNUSED);
    if (ct_send(command) != CS_SUCCEED)
        exit(1);
    while ((code = ct_results(command, &kind)) == CS_SUCCEED)
        if (kind == CS_ROW_RESULT)
            while (ct_fetch(command, CS_UNUSED, CS_UNUSED, CS_UNUSED, &got) == CS_SUCCEED)
                rows += got;
    ct_cmd_drop(command);
    if (code != CS_END_RESULTS)
        exit(1);
    return rows;
}

int main(int argc, char **argv)
{
    if (argc != 4 || cs_ctx_alloc(CS_VERSION_125, &context) != CS_SUCCEED || ct_init(context, CS_VERSION_125) != CS_SUCCEED)
        return 2;
    ct_callback(context, NULL, CS_SET, CS_SERVERMSG_CB, (CS_VOID *)ignored);
    ct_callback(context, NULL, CS_SET, CS_CLIENTMSG_CB, (CS_VOID *)ignored);
    CS_CONNECTION *link = opened(argv[1]);
    if (!link)
        return 1;
    long rows = read_answer(link, argv[2]);
    long long start = taken();
    for (long times = atol(argv[3]); times > 0; times--)
        rows += read_answer(link, argv[2]);
    printf("%lld %ld\n", taken() - start, rows);
    return 0;
}
