/* Calls stir.h: opens a world, a chain and a call of the files here; lists the call's chain, says what its PASSporTs say and those of the call in the file
   `diverted`, asks for it, judges and explains it by all answers and by none; and shows its chain. */
#include "stir.h"

#include "files.h"

#include <string.h>

static uint8_t room[16384];

static void show_text(const char *what, stir_said said, const uint8_t *text) {
    printf("%s: kind %u rule %u, %zu bytes:\n%.*s", what, said.kind, said.rule, (size_t)said.size, (int)said.size, (const char *)text);
}

static void show_refusal(const char *what, stir_said said) {
    printf("%s: kind %u rule %u code %u at %u.%u\n", what, said.kind, said.rule, said.code, said.field, said.part);
}

static int is_untouched(const uint8_t small[8]) {
    return small[0] == 7 && small[7] == 7;
}

/* What comes of the call before its chain is confirmed, and then asks for it. */
static stir_said asked(stir_call *call, stir_chain *chain) {
    uint8_t good[6];
    memset(good, 1, sizeof good);
    show_refusal("without a chain", stir_call_judge(call, good, sizeof good));
    printf("there is no second one: kind %u, %u\n", stir_call_x5u(call, 1, room, sizeof room).kind, stir_call_chain(call, 1, chain).kind);
    stir_call_chain(call, 0, chain);
    show_refusal("with an unconfirmed one", stir_call_questions(call, room, sizeof room));
    stir_said said = stir_chain_questions(chain, room, sizeof room);
    printf("of the chain: kind %u, %zu questions\n", said.kind, (size_t)said.size / STIR_QUESTION);
    stir_chain_confirm(chain, good, (size_t)said.size / STIR_QUESTION);
    show_refusal("as it was shared before", stir_call_questions(call, room, sizeof room));
    stir_call_chain(call, 0, chain);
    said = stir_call_questions(call, room, sizeof room);
    printf("if all is confirmed: kind %u last %llu, %zu questions\n", said.kind, (unsigned long long)said.last, (size_t)said.size / STIR_QUESTION);
    return said;
}

/* Rooms that are too small: nothing is written there. */
static void small_rooms(stir_call *call, stir_chain *chain, stir_call *diverted) {
    uint8_t small[8] = {7, 7, 7, 7, 7, 7, 7, 7}, good = 1;
    stir_said said[] = {
        stir_call_claims(diverted, small, sizeof small), stir_call_questions(call, small, sizeof small), stir_chain_questions(chain, small, sizeof small),
        stir_call_x5u(call, 0, small, sizeof small), stir_call_explain(call, 1, &good, 1, small, 3), stir_call_lines(call, small, sizeof small),
        stir_chain_part(chain, 1, STIR_DIGEST, small, sizeof small),
    };
    for (size_t at = 0; at < sizeof said / sizeof *said; at++) {
        printf("no room: kind %u, %zu bytes, %s\n", said[at].kind, (size_t)said[at].size, is_untouched(small) ? "untouched" : "touched");
    }
}

/* The parts of the leaf, those that aren't text in hex digits; and what there is none of. */
static void show_parts(stir_chain *chain) {
    for (uint32_t part = STIR_SERIAL; part <= STIR_REVOCATION; part++) {
        stir_said said = stir_chain_part(chain, 1, part, room, sizeof room);
        printf("part %u: kind %u ", part, said.kind);
        for (size_t at = 0; at < said.size; at++) {
            printf(part == STIR_CODES || part == STIR_NOT_BEFORE || part == STIR_NOT_AFTER ? "%c" : "%02x", room[at]);
        }
        printf("\n");
    }
    printf("no part: kinds %u, %u, %u\n", stir_chain_part(chain, 0, STIR_SERIAL, room, sizeof room).kind,
           stir_chain_part(chain, 3, STIR_SERIAL, room, sizeof room).kind, stir_chain_part(chain, 1, STIR_REVOCATION + 1, room, sizeof room).kind);
}

/* Inputs that are none: settings, anchors, a table; and nothing is opened. */
static void bad_inputs(bytes anchors) {
    stir_settings good = {60, 5, {'1'}, 1, 10}, bad = {86401, 5, {'1'}, 1, 10};
    stir_world world = {0};
    const uint8_t *x = (const uint8_t *)"x\n";
    stir_said said[] = {
        stir_world_open(&bad, x, 2, x, 2, &world), stir_world_open(&good, x, 2, x, 2, &world),
        stir_world_open(&good, anchors.at, anchors.size, x, 2, &world),
    };
    for (size_t at = 0; at < sizeof said / sizeof *said; at++) {
        printf("bad: kind %u input %u, %s\n", said[at].kind, said[at].input, world.full ? "open" : "closed");
    }
}

/* What is closed says so, and may be closed again. */
static void closed(void) {
    stir_world world = {0}, world_out = {0};
    stir_chain chain = {0}, chain_out = {0};
    stir_call call = {0};
    stir_order order = {1, STIR_BASE, {0}};
    const uint8_t *x = (const uint8_t *)"x", signature[64] = {0};
    uint32_t kinds[] = {
        stir_world_share(&world, &world_out).kind, stir_chain_open(&world, x, 1, &chain_out).kind, stir_chain_questions(&chain, room, sizeof room).kind,
        stir_chain_confirm(&chain, x, 1).kind, stir_chain_part(&chain, 1, STIR_SERIAL, room, sizeof room).kind, stir_chain_share(&chain, &chain_out).kind,
        stir_call_open(&world, 1, x, 1, &call).kind, stir_call_x5u(&call, 0, room, sizeof room).kind, stir_call_chain(&call, 0, &chain).kind,
        stir_call_claims(&call, room, sizeof room).kind, stir_call_header(&call, x, 1, 0, room, sizeof room).kind,
        stir_call_questions(&call, room, sizeof room).kind, stir_call_judge(&call, x, 1).kind, stir_call_explain(&call, 1, x, 1, room, sizeof room).kind,
        stir_call_lines(&call, room, sizeof room).kind, stir_to_sign(&chain, &order, x, 1, x, 1).kind,
        stir_signed(&chain, &order, x, 1, x, 1, signature, sizeof signature, room, sizeof room).kind, stir_to_divert(&chain, 1, x, 1, x, 1, x, 1).kind,
        stir_diverted(&chain, 1, x, 1, x, 1, x, 1, signature, sizeof signature, room, sizeof room).kind, stir_to_retarget(&call, x, 1, &chain, 1, x, 1, x, 1).kind,
        stir_retargeted(&call, x, 1, &chain, 1, x, 1, x, 1, signature, sizeof signature, room, sizeof room).kind,
    };
    int others = 0;
    for (size_t at = 0; at < sizeof kinds / sizeof *kinds; at++) {
        others += kinds[at] != STIR_CLOSED;
    }
    stir_world_close(&world);
    stir_chain_close(&chain);
    stir_call_close(&call);
    printf("closed: %d other answers, %s\n", others, world_out.full || chain_out.full || call.full ? "open" : "closed");
}

int main(int count, char **words) {
    if (count != 2) {
        return 2;
    }
    uint64_t moment = strtoull(words[1], NULL, 10);
    bytes message = read_file("message"), der = read_file("chain"), anchors = read_file("anchors"), table = read_file("table"), other = read_file("diverted");
    stir_settings settings = {60, 5, {'1'}, 1, 10};
    stir_world world = {0};
    stir_chain chain = {0};
    stir_call call = {0}, old = {0}, diverted = {0};
    const uint8_t yes = 1, no = 0;
    printf("abi %d\n", (int)stir_abi());
    printf("a world: kind %u\n", stir_world_open(&settings, anchors.at, anchors.size, table.at, table.size, &world).kind);
    printf("a chain: kind %u\n", stir_chain_open(&world, der.at, der.size, &chain).kind);
    stir_said opened = stir_call_open(&world, moment, message.at, message.size, &call);
    printf("a call: kind %u, %zu to judge\n", opened.kind, (size_t)opened.size);
    stir_said said = stir_call_x5u(&call, 0, room, sizeof room);
    printf("its x5u: %.*s\n", (int)said.size, (const char *)room);

    stir_said all = asked(&call, &chain);
    said = stir_call_judge(&call, &yes, 1);
    int same = !memcmp(all.ticket, said.ticket, 32) && !memcmp(opened.ticket, said.ticket, 32) && all.last == said.last && opened.last == said.last;
    printf("judged by all: kind %u, %s\n", said.kind, same ? "the same ticket" : "another ticket");
    show_refusal("judged by none", stir_call_judge(&call, &yes, 0));
    show_refusal("judged by no", stir_call_judge(&call, &no, 1));
    said = stir_call_explain(&call, 1, &yes, 1, room, sizeof room);
    show_text("explained by all", said, room);
    said = stir_call_explain(&call, 1, &no, 1, room, sizeof room);
    show_text("explained by no", said, room);
    said = stir_call_lines(&call, room, sizeof room);
    show_text("asked", said, room);
    said = stir_call_claims(&call, room, sizeof room);
    show_text("claims", said, room);

    show_refusal("an old call", stir_call_open(&world, moment + 61, message.at, message.size, &old));
    printf("it has nothing to judge: kind %u\n", stir_call_x5u(&old, 0, room, sizeof room).kind);
    said = stir_call_claims(&old, room, sizeof room);
    show_text("claims of it", said, room);
    stir_call_open(&world, moment, other.at, other.size, &diverted);
    said = stir_call_claims(&diverted, room, sizeof room);
    show_text("claims of a diverted call", said, room);
    said = stir_show(der.at, der.size, room, sizeof room);
    show_text("shown", said, room);
    said = stir_show(der.at, der.size - 1, room, sizeof room);
    printf("no chain: kind %u input %u\n", said.kind, said.input);
    show_parts(&chain);
    small_rooms(&call, &chain, &diverted);
    bad_inputs(anchors);
    closed();

    // The call goes on though its world and its chain were closed; and without its chain it breaks rule 10 again.
    stir_world_close(&world);
    stir_chain_close(&chain);
    printf("judged after its chain was closed: kind %u\n", stir_call_judge(&call, &yes, 1).kind);
    stir_call_chain(&call, 0, &chain);
    show_refusal("without its chain", stir_call_judge(&call, &yes, 1));
    stir_call_close(&call);
    stir_call_close(&call);
    stir_call_close(&old);
    stir_call_close(&diverted);
    free(message.at);
    free(der.at);
    free(anchors.at);
    free(table.at);
    free(other.at);
    return 0;
}
