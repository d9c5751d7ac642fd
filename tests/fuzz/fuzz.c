/* The fuzzer's target: its bytes are an image, a ledger and calls on it one behind the other. Each call is made as a C
   host makes it, on buffers of exactly their bytes, and what it answers and leaves is put before the separate solver
   (tests/fuzz/oracle.rs); a difference aborts. Built with NUTRAMEZA_PLANTED one answer of the kit is bent on its way to
   the solver, and the fuzzer must find it. */
#include <stdio.h>
#include <stdlib.h>
#include <string.h>

#include "nutrameza.h"

/* The calls in the order of the header; tests/fuzz/oracle.rs has the same numbers. */
enum kind { CHECK, LOOP, TIDY, TABLE, TURN, UNTURN, OPEN, CLOSE, ASK, SHORT_ASK, SHOW, EXPLAIN, OBSTACLE, STOPPED, WIDEN, NARROW, CLAUSES, KINDS };

/* The first byte of an input: its image gets an end word that balances it, its ledger is as long as the image says. */
enum { BALANCED = 1, FITTING = 2, MOST_CALLS = 24, MOST_TEXT = 1 << 15 };

struct bytes {
    uint8_t *at;
    size_t length;
};

/* As tests/fuzz/oracle.rs has them. */
struct asked {
    uint32_t kind;
    struct bytes image, ledger, lower, upper, out;
    uint64_t user, session, permission, aims[2];
};
struct left {
    uint64_t returned;
    struct bytes image, ledger, out;
};
int nutrameza_oracle(const struct asked *asked, const struct left *left);

/* What libFuzzer counts beside the oracle's branches: the call, its number, and how large its extra is. */
__attribute__((section("__libfuzzer_extra_counters"))) static uint8_t answers[KINDS * 32 * 8];

/* What is left of an input. */
static const uint8_t *input;
static size_t input_left;

static uint8_t take(void) {
    if (input_left == 0) {
        return 0;
    }
    input_left--;
    return *input++;
}

/* So many zeros as an allocation of their own; NULL for none. */
static struct bytes zeros(size_t length) {
    struct bytes made = {length == 0 ? NULL : calloc(1, length), length};
    return made;
}

/* So many bytes likewise, zeros where the input ends. */
static struct bytes take_bytes(size_t length) {
    struct bytes taken = zeros(length);
    size_t there = length < input_left ? length : input_left;
    if (there > 0) {
        memcpy(taken.at, input, there);
        input += there;
        input_left -= there;
    }
    return taken;
}

static struct bytes copy(struct bytes bytes) {
    struct bytes copied = {bytes.length == 0 ? NULL : malloc(bytes.length), bytes.length};
    if (bytes.length > 0) {
        memcpy(copied.at, bytes.at, bytes.length);
    }
    return copied;
}

/* A number up to the first that is out of range, or one that a narrower type would take for it. */
static uint64_t take_number(uint64_t bound) {
    uint8_t byte = take();
    if (byte < 224) {
        return byte % (bound + 1);
    }
    return (UINT64_C(1) << (byte % 8 == 7 ? 63 : 8 * (byte % 8 + 1))) + take() % (bound + 1);
}

/* A length: mostly the right one, else one near it or near nothing. */
static size_t take_length(size_t right) {
    uint8_t byte = take();
    return byte < 224 ? right : byte < 232 ? right + 1 : byte < 240 && right > 0 ? right - 1 : byte % 16;
}

static struct bytes take_image(int flags) {
    size_t length = take();
    struct bytes image = take_bytes(length + 256u * (take() % 4));
    if ((flags & BALANCED) != 0 && image.length >= 8) {
        uint32_t sum = 0;
        image.length -= image.length % 4;
        for (size_t place = 0; place < image.length - 4; place += 4) {
            sum += nutrameza_image_head(image.at + place, 4);
        }
        nutrameza_write_word(image.at + image.length - 4, nutrameza_end_word(&sum, 1));
    }
    return image;
}

/* The upper bound holds all that the policy has, or is taken; the lower lies within it, or is taken. */
static void take_bounds(struct asked *asked) {
    uint8_t form = take();
    asked->lower = take_bytes(take_length(NUTRAMEZA_SET_BYTES));
    asked->upper = (form & 1) != 0 ? take_bytes(take_length(NUTRAMEZA_SET_BYTES)) : zeros(NUTRAMEZA_SET_BYTES);
    unsigned permissions = nutrameza_image_permissions(asked->image.at, asked->image.length);
    for (size_t byte = 0; byte < asked->upper.length && byte < NUTRAMEZA_SET_BYTES && (form & 1) == 0; byte++) {
        unsigned whole = permissions / 8, rest = (1u << permissions % 8) - 1;
        asked->upper.at[byte] = (uint8_t)(byte < whole ? 255 : byte == whole ? rest : 0);
    }
    for (size_t byte = 0; byte < asked->lower.length && byte < asked->upper.length && (form & 2) == 0; byte++) {
        asked->lower.at[byte] &= asked->upper.at[byte];
    }
}

/* A ledger of four sessions a user, of what the first four of each line hold. */
static struct bytes narrow_lines(struct bytes ledger) {
    size_t users = ledger.length / NUTRAMEZA_LINE_BYTES;
    struct bytes old = {users == 0 ? NULL : malloc(users * NUTRAMEZA_OLD_LINE_BYTES), users * NUTRAMEZA_OLD_LINE_BYTES};
    for (size_t user = 0; user < users; user++) {
        memcpy(old.at + user * NUTRAMEZA_OLD_LINE_BYTES, ledger.at + user * NUTRAMEZA_LINE_BYTES, NUTRAMEZA_OLD_LINE_BYTES);
        old.at[user * NUTRAMEZA_OLD_LINE_BYTES] &= 15;
    }
    return old;
}

/* The bytes that a call reads beside the image, and the length of the buffer that it fills. */
static size_t take_buffers(struct asked *asked, struct bytes ledger) {
    size_t users = nutrameza_image_users(asked->image.at, asked->image.length);
    asked->ledger = asked->kind == TURN || asked->kind == UNTURN ? take_bytes(take_length(NUTRAMEZA_TABLE_BYTES))
                    : asked->kind == WIDEN                       ? narrow_lines(ledger)
                                                                 : copy(ledger);
    switch (asked->kind) {
    case LOOP: return take_length(NUTRAMEZA_CHAIN_BYTES);
    case TIDY: return take_length(asked->image.length);
    case TABLE:
    case TURN:
    case UNTURN: return take_length(NUTRAMEZA_TABLE_BYTES);
    case ASK:
    case SHORT_ASK:
    case SHOW: return take_length(NUTRAMEZA_ANSWER_BYTES);
    case OBSTACLE: return take_length(NUTRAMEZA_OBSTACLE_BYTES);
    case STOPPED: return take_length(NUTRAMEZA_USERS_BYTES);
    case WIDEN: return take_length(users * NUTRAMEZA_LINE_BYTES);
    case NARROW: return take_length(users * NUTRAMEZA_OLD_LINE_BYTES);
    case CLAUSES: return take_length(MOST_TEXT);
    default: return 0;
    }
}

/* The next call of the input. */
static struct asked take_call(struct bytes image, struct bytes ledger) {
    struct asked asked;
    memset(&asked, 0, sizeof asked);
    asked.kind = take() % KINDS;
    asked.image = image;
    asked.user = take_number(nutrameza_image_users(image.at, image.length));
    asked.session = take_number(NUTRAMEZA_SESSIONS);
    if (asked.kind == ASK || asked.kind == SHORT_ASK || asked.kind == OBSTACLE || asked.kind == CLAUSES) {
        take_bounds(&asked);
        asked.aims[0] = take_number(3);
        asked.aims[1] = take_number(3);
    }
    if (asked.kind == EXPLAIN) {
        asked.permission = take_number(nutrameza_image_permissions(image.at, image.length));
    }
    asked.out.length = take_buffers(&asked, ledger);
    asked.out.at = asked.out.length == 0 ? NULL : malloc(asked.out.length);
    for (size_t byte = 0; byte < asked.out.length; byte++) {
        asked.out.at[byte] = (uint8_t)(0xA5 + byte);
    }
    return asked;
}

static uint64_t make_call(const struct asked *c, const struct bytes *image, struct bytes *ledger, struct bytes *out) {
    const uint8_t *lower = c->lower.at, *upper = c->upper.at;
    switch ((enum kind)c->kind) {
    case CHECK: return nutrameza_check(image->at, image->length);
    case LOOP: return nutrameza_loop(image->at, image->length, out->at, out->length);
    case TIDY: return nutrameza_tidy(image->at, image->length, out->at, out->length);
    case TABLE: return nutrameza_table(image->at, image->length, out->at, out->length);
    case TURN: return nutrameza_turn(ledger->at, ledger->length, out->at, out->length);
    case UNTURN: return nutrameza_unturn(ledger->at, ledger->length, out->at, out->length);
    case OPEN: return nutrameza_open(image->at, image->length, ledger->at, ledger->length, c->user);
    case CLOSE: return nutrameza_close(image->at, image->length, ledger->at, ledger->length, c->user, c->session);
    case ASK:
        return nutrameza_ask(image->at, image->length, ledger->at, ledger->length, c->user, c->session, lower, c->lower.length, upper,
                             c->upper.length, c->aims[0], c->aims[1], out->at, out->length);
    case SHORT_ASK:
        return nutrameza_short_ask(image->at, image->length, ledger->at, ledger->length, c->user, c->session, lower, c->lower.length, upper,
                                   c->upper.length, out->at, out->length);
    case SHOW: return nutrameza_show(image->at, image->length, ledger->at, ledger->length, c->user, c->session, out->at, out->length);
    case EXPLAIN: return nutrameza_explain(image->at, image->length, ledger->at, ledger->length, c->user, c->session, c->permission);
    case OBSTACLE:
        return nutrameza_obstacle(image->at, image->length, ledger->at, ledger->length, c->user, c->session, lower, c->lower.length, upper,
                                  c->upper.length, out->at, out->length);
    case STOPPED: return nutrameza_stopped(image->at, image->length, ledger->at, ledger->length, out->at, out->length);
    case WIDEN: return nutrameza_widen(image->at, image->length, ledger->at, ledger->length, out->at, out->length);
    case NARROW: return nutrameza_narrow(image->at, image->length, ledger->at, ledger->length, out->at, out->length);
    default:
        return nutrameza_clauses(image->at, image->length, ledger->at, ledger->length, c->user, c->session, lower, c->lower.length, upper,
                                 c->upper.length, c->aims[0], c->aims[1], out->at, out->length);
    }
}

/* How large a number is, in eight steps. */
static unsigned size_of(uint64_t number) {
    unsigned size = 0;
    while (number != 0 && size < 7) {
        number /= 3;
        size++;
    }
    return size;
}

/* Makes the next call and puts it before the solver; the ledger moves on. */
static void play(struct bytes image, struct bytes *ledger) {
    struct asked asked = take_call(image, *ledger);
    struct left left = {0, copy(image), copy(asked.ledger), copy(asked.out)};
    left.returned = make_call(&asked, &left.image, &left.ledger, &left.out);
    answers[(asked.kind * 32 + nutrameza_number_of(left.returned) % 32) * 8 + size_of(nutrameza_extra_of(left.returned))]++;
#ifdef NUTRAMEZA_PLANTED
    /* An ask for the most roles that leaves one out of several. No first input has one. */
    uint64_t roles = asked.kind == ASK && nutrameza_is_done(left.returned) && asked.aims[1] == NUTRAMEZA_MOST ? nutrameza_answer_roles(left.out.at) : 0;
    if ((roles & (roles - 1)) != 0) {
        memset(left.out.at, 0, 4);
    }
#endif
    if (nutrameza_oracle(&asked, &left) != 0) {
        abort();
    }
    if (asked.kind != TURN && asked.kind != UNTURN && asked.kind != WIDEN && ledger->length > 0) {
        memcpy(ledger->at, left.ledger.at, ledger->length);
    }
    free(left.image.at);
    free(left.ledger.at);
    free(left.out.at);
    free(asked.ledger.at);
    free(asked.lower.at);
    free(asked.upper.at);
    free(asked.out.at);
}

int LLVMFuzzerTestOneInput(const uint8_t *data, size_t size);
int LLVMFuzzerTestOneInput(const uint8_t *data, size_t size) {
    input = data;
    input_left = size;
    int flags = take();
    struct bytes image = take_image(flags);
    size_t length = take();
    struct bytes given = take_bytes(length * 4), ledger = given;
    if ((flags & FITTING) != 0) {
        ledger = zeros(nutrameza_ledger_bytes(image.at, image.length));
        if (ledger.length > 0 && given.length > 0) {
            memcpy(ledger.at, given.at, given.length < ledger.length ? given.length : ledger.length);
        }
        free(given.at);
    }
    for (int call = 0; call < MOST_CALLS && input_left > 0; call++) {
        play(image, &ledger);
    }
    free(image.at);
    free(ledger.at);
    return 0;
}
