/*
 * stir.h: telephone calls judged, explained and signed by the proved library libstir_c.a (STIR/SHAKEN: RFC 8224, 8225, 8226, 8588, 8946 and 9060).
 *
 * There are three values, each behind a small struct that the caller holds:
 *
 *     stir_world   what every call goes by: settings, trust anchors and a code table, read once
 *     stir_chain   the certificates to which an x5u leads, judged once under a world
 *     stir_call    one INVITE, read once under a world
 *
 * A world is opened when the host starts and when its files change, a chain when it is fetched, and a call when an INVITE comes:
 *
 * example:
 *
 *     // Judges a call whose PASSporTs all name one chain, with every signature tried by `is_good`: whether it may be let through.
 *     static bool may_pass(stir_world *world, stir_chain *chain, uint64_t now, const uint8_t *invite, size_t size,
 *                          bool (*is_good)(const uint8_t question[STIR_QUESTION]), uint8_t ticket[32]) {
 *         uint8_t questions[STIR_MOST_QUESTIONS * STIR_QUESTION], good[STIR_MOST_QUESTIONS];
 *         stir_call call = {0};
 *         stir_said said = stir_call_open(world, now, invite, size, &call);
 *         if (said.kind == STIR_PASSES) {
 *             for (uint32_t index = 0, count = (uint32_t)said.size; index < count; index++) {
 *                 stir_call_chain(&call, index, chain);
 *             }
 *             said = stir_call_questions(&call, questions, sizeof questions);
 *         }
 *         if (said.kind == STIR_PASSES) {
 *             size_t count = (size_t)said.size / STIR_QUESTION;
 *             for (size_t at = 0; at < count; at++) {
 *                 good[at] = is_good(questions + at * STIR_QUESTION);
 *             }
 *             said = stir_call_judge(&call, good, count);
 *         }
 *         memcpy(ticket, said.ticket, 32);
 *         stir_call_close(&call);
 *         return said.kind == STIR_PASSES;
 *     }
 *
 * (end of the example)
 *
 * What the library does. It takes bytes and gives bytes. It reads no file, opens no connection, starts no thread, waits for nothing and prints nothing.
 * What it holds stands behind the caller's structs and is freed when the last share is closed. It takes malloc's memory in proportion to its inputs, and
 * if there is none it says so (STIR_NO_MEMORY) and changes nothing.
 *
 * What the caller owes. None of this is checked:
 *
 * - Handles. A stir_world, stir_chain or stir_call is all zeros, which is a closed one, or what the library left in it. Nobody else writes in it, and no
 *   copy of it is used beside it; it may be moved in memory between two calls. Each that was opened or shared is closed once it isn't needed. To close a
 *   closed one does nothing, and to ask it says STIR_CLOSED. What an `out` held before is closed when it is opened anew.
 * - One handle a call at a time. Two threads may not be inside with one handle, nor may one call have it twice. To use one value in several threads, give
 *   each its own handle by stir_world_share or stir_chain_share: that copies nothing but a pointer. Handles may move from thread to thread between calls.
 *   Any number of threads may be inside at once with handles of their own, also with shares of one value; none waits for another.
 * - Memory. Each pointer with its length names that many bytes that may be read, and a `room` with its length, bytes that may be written. With length 0 the
 *   pointer may be anything but NULL. While a call runs nobody else reads or writes its handles, its `out` or its room, and nobody writes what it reads.
 *   None of them overlap. Structs are aligned as C aligns them; bytes need no alignment.
 * - Stack. There are 256 kilobytes to spare. No call is made from a signal handler. malloc, realloc and free are one allocator.
 * - fork. Between fork and exec the child makes calls only if the parent had one thread. A child that goes on has handles of its own, and closes them.
 * - Chains. The chain that is handed to stir_call_chain for an x5u has the bytes to which that x5u leads, and was opened under the world of the call, or one
 *   with the same anchors and code table.
 * - Answers. A signature that is said to be good was found to be so by an honest verifier of ES256 (RFC 7518, section 3.4).
 * - Tickets. Of the calls that pass with one ticket only one is let through. Up to its second `last` a ticket has to be remembered.
 * - Keys. A signature that is handed in was made by the key of the chain's first certificate, and the caller may be signed for as the form says.
 *
 * What is proved, and of what, is in docs/dev/PROVED.md. Not proved, but so by the way the library is made: what this page says of malloc, threads and fork.
 *
 * A program is linked with libstir_c.a and then with liblibc_c.a of the Rattle kit.
 */
#ifndef STIR_H
#define STIR_H

#include <stdbool.h>
#include <stddef.h>
#include <stdint.h>

#ifdef __cplusplus
extern "C" {
#endif

/* The version of these declarations. A caller that was made with another one calls nothing else. */
#define STIR_ABI 2

/* STIR_ABI of the library. */
uint64_t stir_abi(void);

/* ---- What is said ---- */

/* What `kind` may be. */
enum {
    STIR_PASSES = 0,    /* the call breaks none of the rules that were tried; */
    STIR_DONE = 0,      /* or what was wanted is done */
    STIR_REFUSED = 1,   /* it breaks one; or the message may not be signed, or the call can't go on there */
    STIR_BAD_INPUT = 2, /* an input is outside its grammar or its limits; nothing was done */
    STIR_NO_MEMORY = 3, /* memory ran out; nothing was done, and nothing is said */
    STIR_NO_ROOM = 4,   /* what is to be written has `size` bytes, more than there is room for; nothing was written */
    STIR_CLOSED = 5,    /* a handle is closed; nothing was done */
    STIR_NONE = 6       /* there is none of this number */
};

/* Which input is a bad one: `input`, if `kind` is STIR_BAD_INPUT. Each function names those that it looks at, in its order. */
enum {
    STIR_SETTINGS = 1, /* past or future is more than 86,400 seconds, or there is no such local numbering */
    STIR_ANCHORS = 4,  /* they aren't certificates of authorities one after another, or more than 256 */
    STIR_TABLE = 5,    /* the lines are no code table, or more than 16,777,216 bytes */
    STIR_CERTIFICATE = 7, /* the chain isn't one of the profile, or its first certificate has no authority list (RFC 8226, section 9); stir_show: no chain */
    STIR_ORDER = 8,    /* there is no such form; the x5u is no URI of 1 to 2,048 bytes, the second is past 253,402,300,799, or the identifier of the
                          call isn't a UUID in 36 characters */
    STIR_SIGNATURE = 9 /* it hasn't 64 bytes */
};

/* What came of a call of the library. Fields that its kind doesn't name are 0. */
typedef struct stir_said {
    uint32_t kind;
    uint32_t input;     /* STIR_BAD_INPUT: which */
    uint32_t rule;      /* STIR_REFUSED: the first rule that is broken (docs/RULES.md); or why nothing may be signed, a stir_withheld, or why
                           the call can't go on there, a stir_held; */
    uint32_t code;      /* the rule's response code (RFC 8224, section 6.2.2), */
    uint32_t field;     /* the Identity header field in which it is broken, counted from 1; 0 if in none, */
    uint32_t part;      /* and the part of it */
    uint64_t last;      /* STIR_PASSES: the last second at which the call's last PASSporT is fresh, in Unix time */
    uint64_t size;      /* how many bytes were written; STIR_NO_ROOM: how many are to be written; stir_call_open: how many PASSporTs are judged */
    uint8_t ticket[32]; /* STIR_PASSES: by what the call is known again, the SHA-256 of what was signed as its last PASSporT; to sign: the SHA-256
                           that is to be signed */
} stir_said;

/*
 * A question to a verifier of signatures: whether this signature over this digest is good under this key. It has STIR_QUESTION bytes: an uncompressed
 * point of P-256 (65 bytes; SEC 1, section 2.3.3), a SHA-256 (32), and r and s (32 each). Whether the point lies on the curve is the verifier's to see.
 * Answers are handed back as bytes, one a question in the same order: 0 if the signature isn't good, and anything else if it is. A question without a
 * byte counts as one whose signature isn't good; bytes past the questions aren't looked at.
 */
enum {
    STIR_QUESTION = 161,
    STIR_MOST_QUESTIONS = 9 /* of a call; a chain has at most six */
};

/* ---- A world: what every call goes by ---- */

typedef struct stir_world {
    bool full;
    void *at;
} stir_world;

/* How calls are judged. */
typedef struct stir_settings {
    uint64_t past;        /* how many seconds the moment of a call may be after the iat of a PASSporT, and */
    uint64_t future;      /* how many the iat may be after the moment; at most 86,400 each */
    uint8_t country[3];   /* the digits of the own country, in ASCII, */
    uint8_t country_size; /* how many they are, 1 to 3, */
    uint8_t national;     /* and how many digits a number in it has, 1 to 14, and with those of the country 15 at most */
} stir_settings;

/*
 * Opens a world. STIR_DONE: it is in `out`. A bad input is one of STIR_SETTINGS, STIR_ANCHORS and STIR_TABLE, looked at in this order.
 *
 * anchors  the trust anchors one after another, each in DER; of two that fit a chain the first counts
 * table    the lines of a code table (docs/FORMATS.md)
 */
stir_said stir_world_open(const stir_settings *settings, const uint8_t *anchors, size_t anchors_size, const uint8_t *table, size_t table_size,
                          stir_world *out);

/* Another handle of the same world, for another thread: in `out`. */
stir_said stir_world_share(stir_world *world, stir_world *out);

/* Closes this handle. The last one that goes, those of its chains and calls counted, frees the world. */
void stir_world_close(stir_world *world);

/* ---- A chain: the certificates to which an x5u leads ---- */

typedef struct stir_chain {
    bool full;
    void *at;
} stir_chain;

/*
 * Opens a chain under a world: its certificates one after another, each in DER, the leaf first. STIR_DONE: it is in `out`, judged by rules 11, 12 and 14,
 * and none of its signatures counts as good. Any bytes are taken: those that are no chain, or more than 49,152, break rule 11 in each call.
 */
stir_said stir_chain_open(stir_world *world, const uint8_t *chain, size_t chain_size, stir_chain *out);

/*
 * Asks for the signatures of the chain's certificates. Into `room` come its questions, at most six, from the leaf's on; none if the chain breaks one of
 * rules 11, 12 and 14. They are the same before and after stir_chain_confirm.
 */
stir_said stir_chain_questions(stir_chain *chain, uint8_t *room, size_t room_size);

/*
 * Says which of the chain's questions have good signatures: a byte for each. From now on this handle, and what is shared from it, is the chain with these
 * and no others confirmed (rule 15); what was shared before stays what it was.
 */
stir_said stir_chain_confirm(stir_chain *chain, const uint8_t *good, size_t good_size);

/* The parts of a certificate that stir_chain_part writes. */
enum {
    STIR_SERIAL = 1,     /* the content of its serial number, as it stands in DER (RFC 5280, section 4.1.2.2) */
    STIR_SUBJECT = 2,    /* its subject, a whole element in DER (section 4.1.2.6) */
    STIR_ISSUER = 3,     /* its issuer, likewise (section 4.1.2.4) */
    STIR_CODES = 4,      /* the service provider codes of its authority list (RFC 8226, section 9), each with an LF */
    STIR_DIGEST = 5,     /* the SHA-256 of its signed part */
    STIR_NOT_BEFORE = 6, /* the first and */
    STIR_NOT_AFTER = 7,  /* the last second at which it is valid, in Unix time, in decimal digits, with a hyphen before them if it is before 1970 */
    STIR_REVOCATION = 8  /* the URIs of its CRL distribution points (RFC 5280, section 4.2.1.13), each with an LF */
};

/*
 * Writes a part of a certificate of the chain into `room`, for whoever asks for revocation or shows it. The leaf is number 1. STIR_NONE: there is no
 * certificate of this number, no such part, or the certificate hasn't got it; or the bytes of the chain aren't one of the profile.
 */
stir_said stir_chain_part(stir_chain *chain, uint32_t number, uint32_t part, uint8_t *room, size_t room_size);

/* Another handle of the same chain, as it is confirmed now: in `out`. */
stir_said stir_chain_share(stir_chain *chain, stir_chain *out);

/* Closes this handle. The last one that goes, those in calls counted, frees the chain. */
void stir_chain_close(stir_chain *chain);

/* ---- A call ---- */

typedef struct stir_call {
    bool full;
    void *at;
} stir_call;

/*
 * Opens a call under a world: reads its message and tries the rules of the call. STIR_PASSES: it breaks none of them; `size` is how many PASSporTs
 * are judged, at most nine, and the ticket and its last second are said. STIR_REFUSED: it breaks one, and no chain and no signature changes that.
 * Either way the call is open, and in `out`; else `out` stays as it was.
 *
 * moment   when the call came, in Unix seconds
 * message  the INVITE; one of more than 65,535 bytes breaks rule 1
 */
stir_said stir_call_open(stir_world *world, uint64_t moment, const uint8_t *message, size_t message_size, stir_call *out);

/*
 * Writes the x5u of a PASSporT into `room`. The PASSporTs that are judged are counted from 0, in the order in which the call went: the originating one is
 * the first. Two may have one x5u. STIR_NONE: there is none of this index.
 */
stir_said stir_call_x5u(stir_call *call, uint32_t index, uint8_t *room, size_t room_size);

/*
 * Hands in the chain to which the x5u of a PASSporT leads: a share of it, as it is confirmed now, stands in the call until it is closed. A closed handle
 * takes it away again; a PASSporT without a chain breaks rule 10. STIR_NONE: there is none of this index. STIR_CLOSED: the call is closed.
 */
stir_said stir_call_chain(stir_call *call, uint32_t index, stir_chain *chain);

/*
 * Says what the PASSporTs of a call say, for a host that shows it or routes by it. Into `room` comes a line for each PASSporT that is judged, at most
 * nine, in the order in which the call went, the originating one first:
 *
 *     FIELD PAYLOAD
 *
 * FIELD is the number of its Identity header field, counted from 1 in message order, in decimal digits. PAYLOAD is the payload that was signed, as
 * deterministic JSON (RFC 8225, section 9): a JSON object without white space, whose members stand in byte order of their names, on all levels. All
 * claims that were signed are there, also those that no rule looks at; of several members of one name the last alone. Of a PASSporT in its compact
 * form (RFC 8225, section 7) they are those that the message gave. No LF stands in it; the line ends with one. A payload has no such form if a number
 * in it has a point or an exponent, is -0, or an integer past 64 bits: then PAYLOAD is a hyphen.
 *
 * What is said is what stir_call_open said, but `size`; if that was STIR_REFUSED nothing is written. What is written was claimed by whoever sent the call,
 * and is worth what stir_call_judge says of it.
 */
stir_said stir_call_claims(stir_call *call, uint8_t *room, size_t room_size);

/*
 * Writes the value of a header field of the message into `room`, for a host that routes or keeps books by it. The fields of one name are counted from 0, in
 * message order. Names are compared without case, and a compact form is its long name: c Content-Type, e Content-Encoding, f From, i Call-ID, k Supported,
 * l Content-Length, m Contact, s Subject, t To, v Via (RFC 3261, sections 7.3.1 and 7.3.3) and y Identity (RFC 8224, section 4).
 *
 * The value has no blanks at its ends; of a field of several lines it is their parts, with a space between two that aren't empty. It has at most 65,535
 * bytes. If they are 0, the field is there, and its value is empty. STIR_NONE: there is no such field, or the message can't be read, which breaks rule 1.
 * A call that breaks another rule has its fields too. Each call reads the message anew, and a message of 65,535 bytes may have more than 21,000 fields: ask
 * for a bounded number of them.
 */
stir_said stir_call_header(stir_call *call, const uint8_t *name, size_t name_size, uint32_t index, uint8_t *room, size_t room_size);

/*
 * Asks for the PASSporTs' own signatures. Into `room` come their questions, at most nine, in the order in which the call went, each under its leaf's key;
 * none if an earlier rule is broken, by the chains that were handed in and by what of them is confirmed. What is said (STIR_PASSES or STIR_REFUSED) is
 * what comes of the call if all of them are good.
 */
stir_said stir_call_questions(stir_call *call, uint8_t *room, size_t room_size);

/*
 * Judges the call by the rules of the call and the chains, over the chains that were handed in. `good` has a byte for each question of
 * stir_call_questions. STIR_PASSES with a ticket and its last second, or STIR_REFUSED with the first rule that is broken.
 */
stir_said stir_call_judge(stir_call *call, const uint8_t *good, size_t good_size);

/*
 * Explains the call. `good` is that of stir_call_judge, and what is said too, but `size`. Into `room` come the lines of the command `explain`
 * (docs/FORMATS.md), as of the call of this number: `NUMBER RULE ok` for each rule from 1 on that the call meets, and `NUMBER RULE CODE PLACE` for the
 * first that it breaks.
 */
stir_said stir_call_explain(stir_call *call, uint32_t number, const uint8_t *good, size_t good_size, uint8_t *room, size_t room_size);

/*
 * Writes the questions of the call into `room` as lines of an answers file (docs/FORMATS.md), `confirm KEY DIGEST SIGNATURE` in hex digits with an LF: those
 * of the chains that were handed in, in the order of the PASSporTs, and then those of stir_call_questions. A line may come twice.
 */
stir_said stir_call_lines(stir_call *call, uint8_t *room, size_t room_size);

/* Closes this handle, and gives back what the call holds of its world and its chains. */
void stir_call_close(stir_call *call);

/* ---- What certificates say ---- */

/*
 * Shows what certificates say. Into `room` come the lines of the command `show` (docs/FORMATS.md) for a chain: at most six certificates one after
 * another, in DER. STIR_DONE, or STIR_CERTIFICATE if the bytes are no such chain. Nothing is judged.
 */
stir_said stir_show(const uint8_t *chain, size_t chain_size, uint8_t *room, size_t room_size);

/* ---- Messages signed ---- */

/* In which form a message is signed. */
enum {
    STIR_BASE = 0,      /* a PASSporT without a type (RFC 8225) */
    STIR_COMPACT = 1,   /* the same in its compact form (RFC 8225, section 7); the message's Date has to be the second of signing */
    STIR_SHAKEN_A = 'A', /* `shaken` (RFC 8588) with this attestation */
    STIR_SHAKEN_B = 'B',
    STIR_SHAKEN_C = 'C'
};

/* What is to be signed. */
typedef struct stir_order {
    uint64_t iat;       /* when it is signed, in Unix seconds */
    uint8_t form;       /* one of the five above */
    uint8_t origid[36]; /* the identifier of the call, a UUID in 36 characters, if the form is `shaken`; else it isn't looked at */
} stir_order;

/* Why nothing may be signed: `rule`, if a function below says STIR_REFUSED. They are looked at in this order. */
enum stir_withheld {
    STIR_FORM = 1,      /* the message is no INVITE, has another Date than a compact PASSporT, or would have more than 65,535 bytes */
    STIR_NO_NUMBER = 2, /* it has no calling number, or To has none */
    STIR_AUTHORITY = 3  /* the certificate doesn't cover the calling number; if the form is STIR_SHAKEN_B or _C and it has a service provider code, any
                           number may be signed for (rule 17) */
};

/*
 * Tells what is to be signed so that a message gets an Identity field with the PASSporT of its calling number and that of To (RFC 8224, section
 * 4.1). STIR_PASSES: `ticket` is the digest to be signed by ES256 (RFC 7518, section 3.4). STIR_REFUSED: nothing may be signed. A bad input is one of
 * STIR_CERTIFICATE and STIR_ORDER, looked at in this order.
 *
 * key      the chain whose first certificate is that of the key; what it may vouch for by rule 17 is signed, and nothing else. Whether the chain is trusted
 *          and whether it is valid at `iat` isn't looked at
 * x5u      the URI of the chain
 * message  the INVITE
 */
stir_said stir_to_sign(stir_chain *key, const stir_order *order, const uint8_t *x5u, size_t x5u_size, const uint8_t *message, size_t message_size);

/*
 * Writes the message with the signed field in the last line of its head. The inputs are those of stir_to_sign, and have to be the same; `signature`
 * has r and s, 32 bytes each, over the digest that it said. That the signature is good isn't looked at. STIR_SIGNATURE is looked at first.
 */
stir_said stir_signed(stir_chain *key, const stir_order *order, const uint8_t *x5u, size_t x5u_size, const uint8_t *message, size_t message_size,
                      const uint8_t *signature, size_t signature_size, uint8_t *room, size_t room_size);

/*
 * Tells what is to be signed so that a message tells of its diversion (RFC 8946, section 4.1): an Identity field with a PASSporT of the type `div`, from
 * the number that was called before to that of the request URI. All is as of stir_to_sign, with the request URI in the place of To.
 *
 * iat      when it is signed, in Unix seconds
 * earlier  the number that was called before, 1 to 15 bytes of 0-9 * #; the certificate has to cover it
 */
stir_said stir_to_divert(stir_chain *key, uint64_t iat, const uint8_t *earlier, size_t earlier_size, const uint8_t *x5u, size_t x5u_size,
                         const uint8_t *message, size_t message_size);

/* Writes the message with that field. All is as of stir_signed. */
stir_said stir_diverted(stir_chain *key, uint64_t iat, const uint8_t *earlier, size_t earlier_size, const uint8_t *x5u, size_t x5u_size,
                        const uint8_t *message, size_t message_size, const uint8_t *signature, size_t signature_size, uint8_t *room, size_t room_size);

/* ---- Calls sent on ---- */

/* Why a call that passes can't go on to a target: `rule`, if a function below says STIR_REFUSED and no rule is broken; `code` is then 0. They are looked
   at in this order. */
enum stir_held {
    STIR_NO_TARGET = 21,      /* the target isn't a request URI, or gives no number */
    STIR_LOOP = 22,           /* the call has been at its number */
    STIR_FULL = 23,           /* the message has 16 Identity fields, or the call 8 diversions */
    STIR_LONG = 24,           /* the message would have more than 65,535 bytes */
    STIR_NO_AUTHORITY = 25    /* the certificate doesn't cover the number that was called before */
};

/*
 * Tells what is to be signed so that a call that passes goes on to another number (RFC 8946, section 4): what stir_call_judge says of it comes first. Then
 * the number that was called before is that of To, or that of the request URI if the call was diverted; the message gets the target as its request URI, and
 * an Identity field with a PASSporT of the type `div` from the one number to the other. STIR_PASSES: `ticket` is the digest to be signed by ES256.
 * STIR_REFUSED: the call breaks `rule`, or it can't go on there, and `rule` is a stir_held. A bad input is one of STIR_CERTIFICATE and STIR_ORDER (the x5u
 * and the second), looked at first and in this order. STIR_CLOSED: one of the handles is closed.
 *
 * call    the call, with the chains that were handed in; its local numbering is that under which it was opened
 * good    a byte for each question of stir_call_questions, as of stir_call_judge
 * key     the chain whose first certificate is that of the key; it has to cover the number that was called before, by the code table of the call's world.
 *         Whether the chain is trusted and whether it is valid at `iat` isn't looked at
 * iat     when it is signed, in Unix seconds
 * target  the request URI of the message that goes on
 * x5u     the URI of the key's chain
 */
stir_said stir_to_retarget(stir_call *call, const uint8_t *good, size_t good_size, stir_chain *key, uint64_t iat, const uint8_t *target, size_t target_size,
                           const uint8_t *x5u, size_t x5u_size);

/*
 * Writes the message that goes on. The inputs are those of stir_to_retarget, and have to be the same; `signature` has r and s, 32 bytes each, over the
 * digest that it said. That the signature is good isn't looked at. STIR_SIGNATURE is looked at first.
 */
stir_said stir_retargeted(stir_call *call, const uint8_t *good, size_t good_size, stir_chain *key, uint64_t iat, const uint8_t *target, size_t target_size,
                          const uint8_t *x5u, size_t x5u_size, const uint8_t *signature, size_t signature_size, uint8_t *room, size_t room_size);

#ifdef __cplusplus
}
#endif

/* The forms in memory, as the library has them on the machines for which it is made: x86-64, with the calling convention of System V. */
#if defined(__cplusplus) && __cplusplus >= 201103L
#define STIR_HOLDS(what) static_assert(what, #what)
#elif defined(__STDC_VERSION__) && __STDC_VERSION__ >= 201112L
#define STIR_HOLDS(what) _Static_assert(what, #what)
#else
#define STIR_HOLDS(what) extern int stir_holds[(what) ? 1 : -1]
#endif
STIR_HOLDS(sizeof(stir_world) == 16 && offsetof(stir_world, full) == 0 && offsetof(stir_world, at) == 8);
STIR_HOLDS(sizeof(stir_chain) == 16 && offsetof(stir_chain, full) == 0 && offsetof(stir_chain, at) == 8);
STIR_HOLDS(sizeof(stir_call) == 16 && offsetof(stir_call, full) == 0 && offsetof(stir_call, at) == 8);
STIR_HOLDS(sizeof(stir_settings) == 24 && offsetof(stir_settings, future) == 8 && offsetof(stir_settings, country) == 16);
STIR_HOLDS(offsetof(stir_settings, country_size) == 19 && offsetof(stir_settings, national) == 20);
STIR_HOLDS(sizeof(stir_said) == 72 && offsetof(stir_said, part) == 20 && offsetof(stir_said, last) == 24);
STIR_HOLDS(offsetof(stir_said, size) == 32 && offsetof(stir_said, ticket) == 40);
STIR_HOLDS(sizeof(stir_order) == 48 && offsetof(stir_order, form) == 8 && offsetof(stir_order, origid) == 9);
#undef STIR_HOLDS

#endif
