/* The README's small host: a rig file is started, its running task waits until count 12, and its bench ticks ten times. */
#include <stdio.h>
#include <stdlib.h>

#include "algolmallet.h"

int main(void)
{
    static uint8_t rig[ALGOLMALLET_FILE_BYTES + 1];
    size_t length = fread(rig, 1, sizeof rig, stdin);
    algolmallet_record *record = malloc(algolmallet_record_size());
    if (!record)
        return 2;
    algolmallet_reply reply = algolmallet_start(record, rig, length);
    if (reply.refusal != ALGOLMALLET_ACCEPTED) {
        char text[ALGOLMALLET_TEXT_BYTES];
        algolmallet_refusal_text(reply.refusal, text, sizeof text);
        printf("line %u: %s\n", reply.line, text);
        return 1;
    }
    algolmallet_wait_until(record, 12);
    for (int i = 0; i < 10; i++) {
        uint16_t words[ALGOLMALLET_TICK_WORDS];
        reply = algolmallet_tick(record, words, ALGOLMALLET_TICK_WORDS);
        printf("count %u, running task %u, %u bus words\n", reply.count, reply.running, reply.words);
    }
    printf("the next waking is at count %u\n", algolmallet_next_waking(record).value); /* 0 for none */
    printf("%u starts of task 1 came too soon\n", algolmallet_overruns(record, 1).value);
    reply = algolmallet_why_not(record, 2, 1); /* can task 2 start within one link? */
    if (reply.refusal != ALGOLMALLET_ACCEPTED)
        printf("why task 2 won't start is refused by %u\n", reply.refusal); /* 8: it is not inactive */
    else if (reply.value != ALGOLMALLET_CAN_START)
        printf("condition %u keeps task 2 from starting\n", reply.value);
    free(record);
    return 0;
}
