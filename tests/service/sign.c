/* Calls stir.h: writes the digest that is to be signed of the file `message` to the file `digest`; and with the file `signature` the signed message
   to the file `signed`.

       sign SECOND X5U FORM    FORM is base, compact, or shaken with its attestation, as in shaken-A */
#include "stir.h"

#include "files.h"

#include <string.h>

static void write_file(const char *name, const uint8_t *at, size_t size) {
    FILE *file = fopen(name, "wb");
    if (!file || fwrite(at, 1, size, file) != size || fclose(file)) {
        perror(name);
        exit(1);
    }
}

/* The number of a form in the header. */
static uint8_t form_of(const char *name) {
    static const struct {
        const char *name;
        uint8_t form;
    } forms[] = {{"base", STIR_BASE}, {"compact", STIR_COMPACT}, {"shaken-A", STIR_SHAKEN_A}, {"shaken-B", STIR_SHAKEN_B}, {"shaken-C", STIR_SHAKEN_C}};
    for (size_t at = 0; at < sizeof forms / sizeof *forms; at++) {
        if (!strcmp(name, forms[at].name)) {
            return forms[at].form;
        }
    }
    exit(2);
}

/* The certificate of the key, under a world with this much of the table. */
static stir_chain key_of(bytes leaf, bytes table, size_t table_size) {
    stir_settings settings = {60, 5, {'1'}, 1, 10};
    stir_world world = {0};
    stir_chain key = {0};
    stir_world_open(&settings, leaf.at, 0, table.at, table_size, &world);
    stir_chain_open(&world, leaf.at, leaf.size, &key);
    stir_world_close(&world);
    return key;
}

static stir_said wanted(stir_chain *key, const stir_order *order, const char *x5u, const char *message) {
    return stir_to_sign(key, order, (const uint8_t *)x5u, strlen(x5u), (const uint8_t *)message, strlen(message));
}

/* How many refusals and bad inputs have another number than that of their name. */
static int misnamed(stir_chain *key, stir_chain *bare, stir_chain *none, stir_order order, const char *x5u) {
    static const char *numbers = "INVITE sip:+2@a SIP/2.0\r\nFrom: <sip:+12000020007@a>\r\nTo: <sip:+2@a>\r\n\r\n";
    static const char *names = "INVITE sip:+2@a SIP/2.0\r\nFrom: <sip:alice@a>\r\nTo: <sip:+2@a>\r\n\r\n";
    uint8_t room[1];
    order.form = STIR_SHAKEN_A;
    int others = wanted(key, &order, x5u, "hello").rule != STIR_FORM;
    others += wanted(key, &order, x5u, names).rule != STIR_NO_NUMBER;
    others += wanted(bare, &order, x5u, numbers).rule != STIR_AUTHORITY;
    others += wanted(none, &order, x5u, numbers).input != STIR_CERTIFICATE;
    others += wanted(key, &order, "", numbers).input != STIR_ORDER;
    others += stir_signed(key, &order, room, 0, room, 0, room, 0, room, 0).input != STIR_SIGNATURE;
    return others;
}

int main(int count, char **words) {
    if (count != 4) {
        return 2;
    }
    stir_order order = {strtoull(words[1], NULL, 10), form_of(words[3]), {0}}, bad;
    memcpy(order.origid, "123e4567-e89b-12d3-a456-426655440000", 36);
    const uint8_t *x5u = (const uint8_t *)words[2];
    size_t x5u_size = strlen(words[2]);
    bytes message = read_file("message"), leaf = read_file("leaf"), table = read_file("table"), signature = read_file("signature");
    stir_chain key = key_of(leaf, table, table.size), bare = key_of(leaf, table, 0), none = key_of(table, table, 0);

    stir_said said = stir_to_sign(&key, &order, x5u, x5u_size, message.at, message.size);
    printf("to sign: kind %u rule %u input %u\n", said.kind, said.rule, said.input);
    write_file("digest", said.ticket, 32);

    static uint8_t room[65536];
    said = stir_signed(&key, &order, x5u, x5u_size, message.at, message.size, signature.at, signature.size, room, sizeof room);
    printf("signed: kind %u rule %u input %u\n", said.kind, said.rule, said.input);
    write_file("signed", room, (size_t)said.size);
    said = stir_signed(&key, &order, x5u, x5u_size, message.at, message.size, signature.at, signature.size, room, 5);
    printf("no room: kind %u\n", said.kind);
    bad = order;
    bad.origid[35] = 'x';
    said = stir_to_sign(&key, &bad, x5u, x5u_size, message.at, message.size);
    printf("no identifier: kind %u input %u\n", said.kind, said.input);
    said = stir_to_sign(&bare, &order, x5u, x5u_size, message.at, message.size);
    printf("no number for the code: kind %u rule %u\n", said.kind, said.rule);
    printf("misnamed: %d\n", misnamed(&key, &bare, &none, order, words[2]));
    stir_chain_close(&key);
    stir_chain_close(&bare);
    stir_chain_close(&none);
    free(message.at);
    free(leaf.at);
    free(table.at);
    free(signature.at);
    return 0;
}
