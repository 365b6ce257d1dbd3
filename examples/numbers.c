/* Every number that the library answers, every code of CLOSE and every type of message, in words; and what a block
 * says. */
#include <fbdp.h>
#include <inttypes.h>
#include <stdio.h>
#include <string.h>

typedef const char *words(uint64_t number);

/* Prints those up to 65,535 that have words of their own. */
static void list(const char *title, words *of) {
    printf("%s\n", title);
    for (uint64_t number = 0; number <= UINT16_MAX; number++) {
        if (strcmp(of(number), of(UINT64_MAX)) != 0) printf("%5" PRIu64 "  %s\n", number, of(number));
    }
}

/* A client and producer in a batch, with 258 messages left and three confirmations awaited, two of them of DATA. */
static const uint8_t block[FBDP_BLOCK_BYTES] = {
    FBDP_CLIENT, FBDP_PRODUCER, FBDP_PHASE_BATCH, 3, 1, 2, 2, 0, 0x01, 0x02, 0x03, 0x04,
};

int main(void) {
    list("Numbers answered", fbdp_meaning);
    list("Codes of CLOSE", fbdp_close_meaning);
    list("Types of messages", fbdp_type_name);
    printf("Any other: %s; %s; %s\n", fbdp_meaning(4), fbdp_close_meaning(7), fbdp_type_name(0));
    printf("A block: phase %u, awaited %u, unconfirmed %u, count %u, limit %" PRIu32 "\n", fbdp_phase(block),
           fbdp_awaited(block), fbdp_unconfirmed(block), fbdp_count(block), fbdp_limit(block));
    return 0;
}
