/* In place of the kit, for figures: the same calls, which judge nothing. An open gives the lowest session, the line's
 * first byte having the open ones; an ask is answered by zeros. */
#include <nutrameza.h>
#include <string.h>

uint64_t nutrameza_check(const uint8_t *image, size_t image_len) { return image == NULL || image_len < 8; }

uint64_t nutrameza_open(const uint8_t *image, size_t image_len, uint8_t *ledger, size_t ledger_len, uint64_t user)
{
    uint8_t *line = ledger + NUTRAMEZA_LINE_BYTES * user;
    uint64_t session = 0;
    (void)image, (void)image_len, (void)ledger_len;
    while (line[0] >> session & 1)
        session++;
    line[0] = (uint8_t)(line[0] | 1u << session);
    return 256 * session;
}

uint64_t nutrameza_close(const uint8_t *image, size_t image_len, uint8_t *ledger, size_t ledger_len, uint64_t user,
                         uint64_t session)
{
    uint8_t *line = ledger + NUTRAMEZA_LINE_BYTES * user;
    (void)image, (void)image_len, (void)ledger_len;
    line[0] = (uint8_t)(line[0] & ~(1u << session));
    return 0;
}

uint64_t nutrameza_short_ask(const uint8_t *image, size_t image_len, uint8_t *ledger, size_t ledger_len, uint64_t user,
                             uint64_t session, const uint8_t *lower, size_t lower_len, const uint8_t *upper,
                             size_t upper_len, uint8_t *answer, size_t answer_len)
{
    (void)image, (void)image_len, (void)ledger, (void)ledger_len, (void)user, (void)session, (void)lower, (void)upper;
    (void)lower_len, (void)upper_len;
    memset(answer, 0, answer_len);
    return 0;
}

uint64_t nutrameza_ask(const uint8_t *image, size_t image_len, uint8_t *ledger, size_t ledger_len, uint64_t user,
                       uint64_t session, const uint8_t *lower, size_t lower_len, const uint8_t *upper, size_t upper_len,
                       uint64_t permission_aim, uint64_t role_aim, uint8_t *answer, size_t answer_len)
{
    (void)permission_aim, (void)role_aim;
    return nutrameza_short_ask(image, image_len, ledger, ledger_len, user, session, lower, lower_len, upper, upper_len,
                               answer, answer_len);
}

uint64_t nutrameza_show(const uint8_t *image, size_t image_len, const uint8_t *ledger, size_t ledger_len, uint64_t user,
                        uint64_t session, uint8_t *answer, size_t answer_len)
{
    (void)image, (void)image_len, (void)ledger, (void)ledger_len, (void)user, (void)session;
    memset(answer, 0, answer_len);
    return 0;
}

uint64_t nutrameza_explain(const uint8_t *image, size_t image_len, const uint8_t *ledger, size_t ledger_len,
                           uint64_t user, uint64_t session, uint64_t permission)
{
    (void)image, (void)image_len, (void)ledger, (void)ledger_len, (void)user, (void)session, (void)permission;
    return 0;
}

uint64_t nutrameza_obstacle(const uint8_t *image, size_t image_len, const uint8_t *ledger, size_t ledger_len,
                            uint64_t user, uint64_t session, const uint8_t *lower, size_t lower_len,
                            const uint8_t *upper, size_t upper_len, uint8_t *roles, size_t roles_len)
{
    (void)image, (void)image_len, (void)ledger, (void)ledger_len, (void)user, (void)session, (void)lower, (void)upper;
    (void)lower_len, (void)upper_len, (void)roles, (void)roles_len;
    return 20;
}

uint64_t nutrameza_stopped(const uint8_t *image, size_t image_len, const uint8_t *ledger, size_t ledger_len,
                           uint8_t *users, size_t users_len)
{
    (void)image, (void)image_len, (void)ledger, (void)ledger_len;
    memset(users, 0, users_len);
    return 0;
}

uint64_t nutrameza_widen(const uint8_t *image, size_t image_len, const uint8_t *old_ledger, size_t old_ledger_len,
                         uint8_t *new_ledger, size_t new_ledger_len)
{
    (void)image, (void)image_len, (void)old_ledger, (void)old_ledger_len;
    memset(new_ledger, 0, new_ledger_len);
    return 0;
}
