/* The calls of a loop, over the library's export. */
#include "pifnjarl_loop.h"
#include "pifnjarl_handle.h"

/* Gives the operation that is to be made. */
static void tell(unsigned char *handle, struct pifnjarl_operation *operation)
{
    struct pifnjarl_reply reply = {0};
    const unsigned char *none = (const unsigned char *)"";
    size_t carried = pifnjarl_handle_call(handle, PIFNJARL_ASK_OPERATION, 0, 0, none, 0, none, 0, &reply, operation->reads, 0);
    *operation = (struct pifnjarl_operation){
        .kind = reply.number, .number = reply.data_bytes, .carried = carried, .flag = reply.completion[0]};
    if (operation->kind == PIFNJARL_POLL) {
        pifnjarl_ask_for(handle, PIFNJARL_ASK_READS, 0, 0, operation->reads, PIFNJARL_PLACES);
        pifnjarl_ask_for(handle, PIFNJARL_ASK_WRITES, 0, 0, operation->writes, PIFNJARL_PLACES);
    }
}

bool pifnjarl_loop_begin(unsigned char *handle, size_t level, struct pifnjarl_operation *operation)
{
    bool begun = pifnjarl_ask(handle, PIFNJARL_ASK_BEGIN, level, 0) != 0;
    if (begun)
        tell(handle, operation);
    return begun;
}

void pifnjarl_loop_step(unsigned char *handle, const struct pifnjarl_answer *answer, const unsigned char *came, size_t count,
                        struct pifnjarl_operation *operation)
{
    struct pifnjarl_reply reply = {0};
    bool happened = answer->kind == PIFNJARL_HAPPENED;
    pifnjarl_handle_call(handle, PIFNJARL_ASK_STEP, answer->kind, answer->number, happened ? answer->reads : came,
                         happened ? PIFNJARL_PLACES : count, answer->writes, PIFNJARL_PLACES, &reply, operation->reads, 0);
    tell(handle, operation);
}

size_t pifnjarl_loop_carried(unsigned char *handle, size_t from, unsigned char *out, size_t room)
{
    return pifnjarl_ask_for(handle, PIFNJARL_ASK_CARRIED, 0, from, out, room);
}
