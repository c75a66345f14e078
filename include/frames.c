/* frames: lists the frames of a capture on standard input, by stream position; RTCM frames are checked by their parity.
 *     cc -Wall -Wextra -I include include/frames.c target/staticlib/liborgnevis.a -o frames */
#include <inttypes.h>
#include <stdio.h>
#include "orgnevis.h"

int main(void)
{
    static uint8_t carry[1029], chunk[4096]; /* 1,029 holds every RTCM frame and payloads to 1,022 */
    uint64_t state[24] = {0}, out[8], closed[16] = {0}, earlier = 0;
    size_t got;

    if (orgnevis_start(state, carry, sizeof carry, ORGNEVIS_UBX_RTCM + ORGNEVIS_PARITY, 1022) != 0)
        return 1;
    while ((got = fread(chunk, 1, sizeof chunk, stdin)) > 0) {
        if (orgnevis_open(state, carry, sizeof carry, chunk, got) != 0)
            return 1;
        for (;;) {
            orgnevis_step(state, carry, sizeof carry, chunk, got, out);
            if (out[0] == ORGNEVIS_NEED_MORE || out[0] == ORGNEVIS_REFUSAL)
                break;
            const uint8_t *body = (out[4] == ORGNEVIS_CARRY ? carry : chunk) + out[5];
            printf("%" PRIu64 " ", earlier + out[1]);
            if (out[0] == ORGNEVIS_UBX_FRAME)
                printf("UBX %02X %02X, %" PRIu64 " bytes\n", (int)out[2], (int)out[3], out[6] - 2);
            else if (out[0] == ORGNEVIS_RTCM_FRAME)
                printf("RTCM, %" PRIu64 " bytes, type %d\n", out[6],
                       out[6] < 8 ? -1 : body[3] << 4 | body[4] >> 4);
            else if (out[0] == ORGNEVIS_NO_ROOM)
                printf("no room for %" PRIu64 " bytes\n", out[2]);
            else
                printf("wrong %s\n", out[0] == ORGNEVIS_WRONG_SUM ? "sum" : "parity");
        }
        orgnevis_close(state, carry, sizeof carry, chunk, got, closed);
        earlier += closed[1];
    }
    printf("%" PRIu64 " used, %" PRIu64 " kept\n", earlier, closed[2]);
    return 0;
}
