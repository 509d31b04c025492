/* Asks a server for its answers 0 to N-1 by FreeTDS's CT-Library, and prints of each: its number, the results with rows, the rows,
   the values of parameters, whether it was read to its end.

   usage: reads SERVER COUNT */
#include <stdio.h>
#include <stdlib.h>
#include <string.h>
#include <ctpublic.h>

static CS_CONTEXT *context;

static CS_RETCODE ignored(CS_CONTEXT *of, CS_CONNECTION *link, void *message)
{
    (void)of, (void)link, (void)message;
    return CS_SUCCEED;
}

static CS_CONNECTION *opened(char *server)
{
    CS_CONNECTION *link;
    if (ct_con_alloc(context, &link) != CS_SUCCEED)
        return NULL;
    ct_con_props(link, CS_SET, CS_USERNAME, "u", CS_NULLTERM, NULL);
    ct_con_props(link, CS_SET, CS_PASSWORD, "p", CS_NULLTERM, NULL);
    return ct_connect(link, server, CS_NULLTERM) == CS_SUCCEED ? link : NULL;
}

static int is_dead(CS_CONNECTION *link)
{
    CS_INT status = 0;
    return ct_con_props(link, CS_GET, CS_CON_STATUS, &status, CS_UNUSED, NULL) != CS_SUCCEED || !(status & CS_CONSTAT_CONNECTED)
        || (status & CS_CONSTAT_DEAD);
}

/* How many rows there are of the result that has come. */
static int rows_of(CS_COMMAND *command)
{
    CS_INT got;
    int rows = 0;
    while (ct_fetch(command, CS_UNUSED, CS_UNUSED, CS_UNUSED, &got) == CS_SUCCEED)
        rows += got;
    return rows;
}

/* Reads one answer. */
static int read_answer(CS_CONNECTION *link, long which)
{
    CS_COMMAND *command;
    CS_INT kind;
    CS_RETCODE code;
    char text[20];
    int results = 0, rows = 0, parameters = 0;
    snprintf(text, sizeof text, "%ld", which);
    ct_cmd_alloc(link, &command);
    ct_command(command, CS_LANG_CMD, text, CS_NULLTERM, CS_UNUSED);
    code = ct_send(command);
    while (code == CS_SUCCEED && (code = ct_results(command, &kind)) == CS_SUCCEED)
        switch (kind) {
        case CS_ROW_RESULT: results++; rows += rows_of(command); break;
        case CS_PARAM_RESULT: parameters += rows_of(command); break;
        case CS_STATUS_RESULT: rows_of(command); break;
        default: break;
        }
    int is_read = code == CS_END_RESULTS && !is_dead(link);
    printf("%ld %d %d %d %s\n", which, results, rows, parameters, is_read ? "read" : "dead");
    ct_cmd_drop(command);
    return is_read;
}

int main(int argc, char **argv)
{
    if (argc != 3 || cs_ctx_alloc(CS_VERSION_125, &context) != CS_SUCCEED || ct_init(context, CS_VERSION_125) != CS_SUCCEED)
        return 2;
    ct_callback(context, NULL, CS_SET, CS_SERVERMSG_CB, (CS_VOID *)ignored);
    ct_callback(context, NULL, CS_SET, CS_CLIENTMSG_CB, (CS_VOID *)ignored);
    CS_CONNECTION *link = opened(argv[1]);
    for (long which = 0; link && which < atol(argv[2]); which++)
        if (!read_answer(link, which)) {
            ct_close(link, CS_FORCE_CLOSE);
            ct_con_drop(link);
            link = opened(argv[1]);
        }
    return link ? 0 : 1;
}
