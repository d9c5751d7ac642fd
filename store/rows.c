/* Rows as they are stored, and back: numbers lowest byte first, and a sum over each line's row. */
#include <stdio.h>
#include <string.h>

#include "store.h"

cell nms_num(uint64_t number) { return (cell){'i', (int64_t)number, NULL, 0}; }
cell nms_bytes(const void *bytes, size_t count) { return (cell){bytes == NULL ? 0 : 'b', 0, bytes, count}; }
cell nms_text(const char *text) { return (cell){'t', 0, text, strlen(text)}; }

uint64_t nms_number(const uint8_t *bytes)
{
    uint64_t number = 0;
    for (int byte = 7; byte >= 0; byte--)
        number = number << 8 | bytes[byte];
    return number;
}

void nms_put_number(uint8_t *bytes, uint64_t number)
{
    for (int byte = 0; byte < 8; byte++)
        bytes[byte] = (uint8_t)(number >> 8 * byte & 255);
}

void nms_put_windows(uint8_t *bytes, const windows *wins)
{
    for (size_t session = 0; session < NUTRAMEZA_SESSIONS; session++) {
        nms_put_number(bytes + 8 * session, wins->opened[session]);
        nms_put_number(bytes + WINS / 2 + 8 * session, wins->last[session]);
    }
}

void nms_take_windows(windows *wins, const uint8_t *bytes)
{
    for (size_t session = 0; session < NUTRAMEZA_SESSIONS; session++) {
        wins->opened[session] = nms_number(bytes + 8 * session);
        wins->last[session] = nms_number(bytes + WINS / 2 + 8 * session);
    }
}

/* CRC-64 (ECMA-182, reflected), four bits at a time. */
static uint64_t crc(uint64_t sum, const uint8_t *bytes, size_t count)
{
    static const uint64_t table[16] = {
        UINT64_C(0x0000000000000000), UINT64_C(0x7d9ba13851336649), UINT64_C(0xfb374270a266cc92),
        UINT64_C(0x86ace348f355aadb), UINT64_C(0x64b62bcaebc387a1), UINT64_C(0x192d8af2baf0e1e8),
        UINT64_C(0x9f8169ba49a54b33), UINT64_C(0xe21ac88218962d7a), UINT64_C(0xc96c5795d7870f42),
        UINT64_C(0xb4f7f6ad86b4690b), UINT64_C(0x325b15e575e1c3d0), UINT64_C(0x4fc0b4dd24d2a599),
        UINT64_C(0xadda7c5f3c4488e3), UINT64_C(0xd041dd676d77eeaa), UINT64_C(0x56ed3e2f9e224471),
        UINT64_C(0x2b769f17cf112238)};
    for (size_t at = 0; at < count; at++) {
        sum = table[(sum ^ bytes[at]) & 15] ^ sum >> 4;
        sum = table[(sum ^ bytes[at] >> 4) & 15] ^ sum >> 4;
    }
    return sum;
}

/* Over all of a line's row, state being its bytes and windows: a row of another ward, user or time has another sum. */
uint64_t nms_sum(uint64_t ward, uint64_t user, uint64_t nr, uint64_t version, const uint8_t *state)
{
    uint8_t head[32];
    nms_put_number(head, ward);
    nms_put_number(head + 8, user);
    nms_put_number(head + 16, nr);
    nms_put_number(head + 24, version);
    return ~crc(crc(~UINT64_C(0), head, sizeof head), state, STATE);
}

static int is_bytes(const cell *c, size_t count) { return c->kind == 'b' && c->n == count; }
static int is_number(const cell *c) { return c->kind == 'i'; }

void nms_take_line(void *store, const cell *row)
{
    nutrameza_store *s = store;
    lines *l = &s->lines;
    uint64_t user = (uint64_t)row[0].i;
    uint8_t state[STATE];
    if (!is_number(row) || user >= USERS) {
        l->strays++;
        return;
    }
    l->seen |= UINT64_C(1) << user;
    l->damaged |= UINT64_C(1) << user;
    if (!is_number(row + 1) || !is_number(row + 2) || !is_bytes(row + 3, LINE) || !is_bytes(row + 4, WINS) ||
        !is_number(row + 5))
        return;
    l->nr[user] = (uint64_t)row[1].i;
    l->version[user] = (uint64_t)row[2].i;
    memcpy(state, row[3].p, LINE);
    memcpy(state + LINE, row[4].p, WINS);
    if (nms_sum(s->id, user, l->nr[user], l->version[user], state) != (uint64_t)row[5].i)
        return;
    l->damaged &= ~(UINT64_C(1) << user);
    memcpy(l->bytes + user * LINE, state, LINE);
    nms_take_windows(&l->wins[user], state + LINE);
}

void nms_take_ward(void *to, const cell *row)
{
    ward_row *w = to;
    w->id = (uint64_t)row[0].i;
    w->version = (uint64_t)row[1].i;
    w->turn = (uint64_t)row[2].i;
    w->first = (uint64_t)row[3].i;
    w->since = (uint64_t)row[4].i;
    w->found = 1;
}

static uint32_t word(const uint8_t *bytes)
{
    return (uint32_t)bytes[0] | (uint32_t)bytes[1] << 8 | (uint32_t)bytes[2] << 16 | (uint32_t)bytes[3] << 24;
}

/* An image, with what the locks go by: how many users its head says, and whether it has a word of kind 7, a limit. */
void nms_take_image(void *to, const cell *row)
{
    policy *p = to;
    p->len = 0;
    if (row[0].kind != 'b' || row[0].n > sizeof p->image || row[0].n < 8)
        return;
    p->len = row[0].n;
    memcpy(p->image, row[0].p, p->len);
    p->users = word(p->image) >> 21 & 127;
    p->limits = 0;
    for (size_t at = 4; at + 4 <= p->len; at += 4)
        p->limits |= word(p->image + at) >> 28 == 7;
}

void nms_copy_text(char *to, size_t room, const cell *from)
{
    int count = from->kind == 0 || from->n >= room ? (int)room - 1 : (int)from->n;
    snprintf(to, room, "%.*s", from->kind == 0 ? 0 : count, from->kind == 0 ? "" : (const char *)from->p);
}
