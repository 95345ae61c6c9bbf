/* Transfers between four accounts that begin with a million units each. Hints: the number of transfers, and of each
   the payer, the payee and the amount's two words, the low one first. The payer also pays a fee of a thousandth of
   the amount. A transfer that the payer can't pay is refused. Public: the four balances, then all fees, as 64-bit
   numbers; then the number of refused transfers. The exit code is 0 where no unit was lost. */
#include "openvm.h"

#define ACCOUNTS 4
#define OPENING 1000000ull

struct transfer {
    uint32_t payer;
    uint32_t payee;
    uint64_t amount;
};

struct bank {
    uint64_t balance[ACCOUNTS];
    uint64_t fees;
    uint32_t refused;
};

static struct transfer next_transfer(void) {
    struct transfer next;
    next.payer = openvm_hint();
    next.payee = openvm_hint();
    next.amount = openvm_hint();
    next.amount |= (uint64_t)openvm_hint() << 32;
    return next;
}

static int is_paid(struct bank *bank, struct transfer transfer) {
    const uint64_t fee = transfer.amount / 1000;
    if (transfer.payer >= ACCOUNTS || transfer.payee >= ACCOUNTS) {
        return 0;
    }
    if (bank->balance[transfer.payer] < transfer.amount || bank->balance[transfer.payer] - transfer.amount < fee) {
        return 0;
    }
    bank->balance[transfer.payer] -= transfer.amount + fee;
    bank->balance[transfer.payee] += transfer.amount;
    bank->fees += fee;
    return 1;
}

static void reveal_long(size_t place, uint64_t number) {
    openvm_reveal(place, (uint32_t)number);
    openvm_reveal(place + 1, (uint32_t)(number >> 32));
}

int main(void) {
    struct bank bank = {.balance = {OPENING, OPENING, OPENING, OPENING}};
    const uint32_t count = openvm_hint();
    for (uint32_t i = 0; i < count; i++) {
        bank.refused += !is_paid(&bank, next_transfer());
    }
    uint64_t total = bank.fees;
    for (size_t i = 0; i < ACCOUNTS; i++) {
        reveal_long(2 * i, bank.balance[i]);
        total += bank.balance[i];
    }
    reveal_long(2 * ACCOUNTS, bank.fees);
    openvm_reveal(2 * ACCOUNTS + 2, bank.refused);
    return total == ACCOUNTS * OPENING ? 0 : 1;
}
