/*
 * Many threads over one world and one chain, by the header: each shares them, judges calls and sends them on, fetches the chain anew, and closes all.
 *
 *     share MOMENT THREADS CALLS X5U CALL-ID
 *
 * The files `message`, `other`, `chain`, `anchors` and `table` are a call that passes, one that is too old, and what they are judged by; X5U leads to the
 * chain, and both calls have the CALL-ID. Each thread judges so many calls, and asks each for its Call-ID. Every seventh of them it fetches: opens the chain
 * anew and confirms it, or doesn't. Every eleventh time it closes its handles and shares them anew. Every thirteenth it sends the call on to the URI in the
 * file `target` by the key of the chain, with the signature in `signature`: what is signed has to be `digest`, and what goes on `onward`; and to the URI in
 * `back`, at whose number the call has been. The main thread closes its own handles while the others work. It ends with 0 if each answer was as it has to be.
 */
#include "stir.h"

#include "files.h"

#include <pthread.h>
#include <stdatomic.h>
#include <string.h>

static bytes message, other, der, anchors, table, target, back, signature, digest, onward;
static const char *x5u, *identifier;
static uint64_t moment, calls;
static atomic_ulong wrong;

typedef struct thread {
    pthread_t id;
    stir_world world;
    stir_chain chain;
} thread;

/* Opens the chain under the world, and confirms it if that is wanted. */
static void fetch(stir_world *world, stir_chain *chain, bool confirms) {
    uint8_t questions[STIR_MOST_QUESTIONS * STIR_QUESTION], good[STIR_MOST_QUESTIONS];
    wrong += stir_chain_open(world, der.at, der.size, chain).kind != STIR_DONE;
    stir_said said = stir_chain_questions(chain, questions, sizeof questions);
    wrong += said.kind != STIR_DONE || said.size == 0 || said.size % STIR_QUESTION != 0;
    memset(good, confirms, sizeof good);
    wrong += stir_chain_confirm(chain, good, (size_t)said.size / STIR_QUESTION).kind != STIR_DONE;
}

static bool is_text(stir_said said, const uint8_t *room, const char *text) {
    return said.kind == STIR_DONE && said.size == strlen(text) && !memcmp(room, text, strlen(text));
}

/* Asks for the first Call-ID of a call, and for a second. */
static void identify(stir_call *call) {
    uint8_t value[64];
    wrong += !is_text(stir_call_header(call, (const uint8_t *)"call-id", 7, 0, value, sizeof value), value, identifier);
    wrong += stir_call_header(call, (const uint8_t *)"i", 1, 1, value, sizeof value).kind != STIR_NONE;
}

/* Sends a call on that passes, if the rule that it breaks is 0. */
static void send_on(stir_call *call, const uint8_t *good, size_t count, stir_chain *key, uint32_t rule) {
    uint8_t room[16384];
    const uint8_t *uri = (const uint8_t *)x5u;
    size_t size = strlen(x5u);
    stir_said said = stir_to_retarget(call, good, count, key, moment, target.at, target.size, uri, size);
    wrong += rule ? said.rule != rule : said.kind != STIR_PASSES || memcmp(said.ticket, digest.at, sizeof said.ticket);
    said = stir_retargeted(call, good, count, key, moment, target.at, target.size, uri, size, signature.at, signature.size, room, sizeof room);
    wrong += rule ? said.rule != rule : said.kind != STIR_PASSES || said.size != onward.size || memcmp(room, onward.at, onward.size);
    said = stir_to_retarget(call, good, count, key, moment, back.at, back.size, uri, size);
    wrong += said.rule != (rule ? rule : STIR_LOOP);
}

/* Judges one call with its signature confirmed or not, and says which rule it breaks, or 0. */
static uint32_t judged(stir_world *world, stir_chain *chain, bytes invite, bool confirms, bool goes_on) {
    uint8_t questions[STIR_MOST_QUESTIONS * STIR_QUESTION], good[STIR_MOST_QUESTIONS], uri[256];
    stir_call call = {0};
    stir_said said = stir_call_open(world, moment, invite.at, invite.size, &call);
    for (uint32_t index = 0, count = (uint32_t)said.size; index < count; index++) {
        wrong += !is_text(stir_call_x5u(&call, index, uri, sizeof uri), uri, x5u);
        wrong += stir_call_chain(&call, index, chain).kind != STIR_DONE;
    }
    identify(&call);
    said = stir_call_questions(&call, questions, sizeof questions);
    size_t asked = (size_t)said.size / STIR_QUESTION;
    memset(good, confirms, sizeof good);
    said = stir_call_judge(&call, good, asked);
    if (goes_on) {
        send_on(&call, good, asked, chain, said.rule);
    }
    stir_call_close(&call);
    wrong += said.kind > STIR_REFUSED;
    return said.rule;
}

static void *work(void *given) {
    thread *self = given;
    bool confirmed = true;
    for (uint64_t call = 0; call < calls; call++) {
        if (call % 7 == 3) {
            confirmed = call % 2;
            fetch(&self->world, &self->chain, confirmed);
        }
        if (call % 11 == 5) {
            stir_world world = {0};
            stir_chain chain = {0};
            wrong += stir_world_share(&self->world, &world).kind + stir_chain_share(&self->chain, &chain).kind != 0;
            stir_world_close(&self->world);
            stir_chain_close(&self->chain);
            self->world = world;
            self->chain = chain;
        }
        bool good = call % 3 != 0;
        uint32_t rule = judged(&self->world, &self->chain, call % 5 ? message : other, good, call % 13 == 6);
        wrong += rule != (call % 5 == 0 ? 9u : !confirmed ? 15u : good ? 0u : 16u);
    }
    stir_chain_close(&self->chain);
    stir_world_close(&self->world);
    return NULL;
}

int main(int count, char **words) {
    if (count != 6) {
        return 2;
    }
    moment = strtoull(words[1], NULL, 10);
    calls = strtoull(words[3], NULL, 10);
    unsigned long many = strtoul(words[2], NULL, 10);
    x5u = words[4], identifier = words[5];
    target = read_file("target"), back = read_file("back"), signature = read_file("signature"), digest = read_file("digest"), onward = read_file("onward");
    message = read_file("message"), other = read_file("other"), der = read_file("chain"), anchors = read_file("anchors"), table = read_file("table");
    stir_settings settings = {60, 5, {'1'}, 1, 10};
    stir_world world = {0};
    stir_chain chain = {0};
    thread *threads = calloc(many, sizeof *threads);
    wrong += stir_world_open(&settings, anchors.at, anchors.size, table.at, table.size, &world).kind != STIR_DONE;
    fetch(&world, &chain, true);
    for (unsigned long at = 0; at < many; at++) {
        wrong += stir_world_share(&world, &threads[at].world).kind + stir_chain_share(&chain, &threads[at].chain).kind != 0;
        if (pthread_create(&threads[at].id, NULL, work, &threads[at])) {
            return 1;
        }
    }
    stir_world_close(&world);
    stir_chain_close(&chain);
    for (unsigned long at = 0; at < many; at++) {
        pthread_join(threads[at].id, NULL);
    }
    printf("%lu threads, %llu calls each, %lu wrong answers\n", many, (unsigned long long)calls, (unsigned long)wrong);
    free(threads);
    bytes files[] = {message, other, der, anchors, table, target, back, signature, digest, onward};
    for (size_t at = 0; at < sizeof files / sizeof *files; at++) {
        free(files[at].at);
    }
    return wrong != 0;
}
