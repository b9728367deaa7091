/* 4 entries of an account, an amount and a kind: sums of credits and debits, the greatest balance, and the last entry beyond a limit. */
#include "pifnjarl.h"

struct entry { u32 account; u32 kind; u64 amount; };

long ledger(const struct context *context, const u8 *block, u8 *scratch)
{
    const struct entry *entry = (const struct entry *)block;
    u64 credits = 0, debits = 0, greatest = 0, beyond = 0;

#pragma unroll
    for (int i = 0; i < 4; i++) {
        u64 amount = entry[i].amount >> 8;

        if ((entry[i].kind & 3) == 1) {
            debits += amount;
        } else {
            credits += amount;
            if (credits - debits > greatest)
                greatest = credits - debits;
        }
        if (amount > 1ull << 54)
            beyond = entry[i].account;
    }
    ((u64 *)scratch)[0] = credits;
    ((u64 *)scratch)[1] = debits;
    ((u64 *)scratch)[2] = greatest;
    ((u64 *)scratch)[3] = beyond;
    emit(scratch, 32);
    return 0;
}
