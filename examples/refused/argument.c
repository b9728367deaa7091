/* Refused: the context is only read. */
#include "pifnjarl.h"

long argument(struct context *context)
{
    context->argument = 1;
    return 0;
}
