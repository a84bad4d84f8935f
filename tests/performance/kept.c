/*
 * What a call takes of a processor beside ES256, by the library for C: opened, given its chain, asked for with each signature taken for good, and closed.
 *
 *     kept LOG ANCHORS TABLE CHAINS ROUNDS
 *
 * The folder has the chains `chain-0.der` and so on, as many as CHAINS says; the x5u of each ends in `/NUMBER.pem`. It goes through the log so often, and
 * says how many microseconds a call took and how many passed, and what opening the world and each chain took.
 */
#include "stir.h"

#include "../service/files.h"

#include <string.h>
#include <time.h>

static uint8_t room[65536];

/* Microseconds of the process. */
static double spent(void) {
    struct timespec time;
    clock_gettime(CLOCK_PROCESS_CPUTIME_ID, &time);
    return (double)time.tv_sec * 1e6 + (double)time.tv_nsec / 1e3;
}

/* The number in an x5u, before `.pem`. */
static unsigned long number_in(const uint8_t *x5u, size_t size) {
    size_t at = size;
    while (at > 0 && x5u[at - 1] != '/') {
        at--;
    }
    return strtoul((const char *)x5u + at, NULL, 10);
}

/* Whether a call passes if all its signatures are good. */
static bool passes(stir_world *world, stir_chain *chains, unsigned long many, uint64_t moment, const uint8_t *message, size_t size) {
    stir_call call = {0};
    stir_said said = stir_call_open(world, moment, message, size, &call);
    for (uint32_t index = 0, count = (uint32_t)said.size; index < count; index++) {
        said = stir_call_x5u(&call, index, room, sizeof room - 1);
        room[said.size] = 0;
        unsigned long number = number_in(room, (size_t)said.size);
        if (number < many) {
            stir_call_chain(&call, index, &chains[number]);
        }
    }
    said = stir_call_questions(&call, room, sizeof room);
    stir_call_close(&call);
    return said.kind == STIR_PASSES;
}

int main(int count, char **words) {
    if (count != 6) {
        return 2;
    }
    bytes log = read_file(words[1]), anchors = read_file(words[2]), table = read_file(words[3]);
    unsigned long many = strtoul(words[4], NULL, 10), rounds = strtoul(words[5], NULL, 10), calls = 0, passed = 0;
    stir_settings settings = {60, 5, {'1'}, 1, 10};
    stir_world world = {0};
    stir_chain *chains = calloc(many, sizeof *chains);
    const uint8_t good[6] = {1, 1, 1, 1, 1, 1};
    double begun = spent();
    if (stir_world_open(&settings, anchors.at, anchors.size, table.at, table.size, &world).kind != STIR_DONE) {
        return 1;
    }
    double opened = spent();
    for (unsigned long at = 0; at < many; at++) {
        char name[64];
        snprintf(name, sizeof name, "chain-%lu.der", at);
        bytes der = read_file(name);
        stir_chain_open(&world, der.at, der.size, &chains[at]);
        stir_chain_confirm(&chains[at], good, sizeof good);
        free(der.at);
    }
    double fetched = spent();
    for (unsigned long round = 0; round < rounds; round++) {
        for (size_t at = 0; at < log.size; calls++) {
            unsigned long moment, size;
            int head;
            if (sscanf((const char *)log.at + at, "@%lu %lu\n%n", &moment, &size, &head) != 2) {
                return 1;
            }
            passed += passes(&world, chains, many, moment, log.at + at + head, size);
            at += (size_t)head + size;
        }
    }
    double judged = spent();
    printf("%.2f a call, %lu of %lu pass; %.0f to open the world, %.1f a chain\n", (judged - fetched) / (double)calls, passed, calls, opened - begun,
           (fetched - opened) / (double)many);
    for (unsigned long at = 0; at < many; at++) {
        stir_chain_close(&chains[at]);
    }
    stir_world_close(&world);
    free(chains);
    free(log.at);
    free(anchors.at);
    free(table.at);
    return 0;
}
