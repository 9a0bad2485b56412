/* A path that is built once and flown FLIGHTS times: tests/boards/run figures counts the instructions of a flight by it. */
#include "kihavute.h"

int main(void) {
    static const uint8_t plan[] = "M0 0 H30 V40";
    static uint8_t kinds[8];
    static float fields[88], tables[264], lengths[8];
    static uint32_t commands[8];
    static uint64_t answer[8];
    uint32_t refusal = kihavute_build_text(plan, sizeof plan - 1, kinds, 8, fields, 88, tables, 264, lengths, 8, commands, 8, answer, 8);
    kihavute_count segments = answer[0], numbers = answer[1], entries = answer[2];
    for (int i = 0; i < FLIGHTS; i++) {
        refusal |= kihavute_flight(kinds, segments, fields, numbers, tables, entries, lengths, segments, commands, segments, 0.5f, answer, 8);
    }
    return (int)refusal;
}
