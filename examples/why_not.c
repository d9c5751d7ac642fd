/* Why a button does not work, told to whoever pressed it: the obstacle of a refused ask, by each of its kinds, with the
 * window that is in the way where one is. The clinic is that of examples/clinic.policy.
 *
 *     tools/policy build examples/clinic.policy -o policy.img
 *     cc -std=c99 -Wall -Wextra -Werror -Iinclude examples/why_not.c target/staticlib/libnutrameza.a -o why_not
 *     ./why_not policy.img
 *
 * Prints each button with what comes of it; the exit status is 1 where the image can't be read or is refused.
 */
#include <nutrameza.h>

#include <inttypes.h>
#include <stdio.h>

enum { ANNA, BERT, USERS };
enum { READ_ID = 1, READ_HEALTH_RECORDS = 2, PRESCRIBE = 4, SEND_DATA = 16, GIVE_DRUGS = 32, ANSWER_ALARM = 64, ORDER_DRUGS = 128,
       APPROVE_ORDER = 256, ALL = 511 };

/* The policy's names, in the order of their numbers. */
static const char *const users[] = {"ANNA", "BERT"};
static const char *const role_names[] = {"Doctor", "Data_Manager", "Nurse", "On_Call", "Buyer", "Approver"};
static const char *const permissions[] = {"Read_id", "Read_health_records", "Prescribe", "Read_prescription", "Send_data", "Give_drugs",
                                          "Answer_alarm", "Order_drugs", "Approve_order"};

static uint8_t image[NUTRAMEZA_MAX_IMAGE_BYTES + 1], ledger[USERS * NUTRAMEZA_LINE_BYTES];
static size_t image_len;

/* The names of a set's roles, with a word between the last two. */
static void say_roles(uint64_t roles, const char *between)
{
    for (unsigned role = 0; roles >> role != 0; role++)
        if (roles >> role & 1) {
            uint64_t rest = roles >> role >> 1;
            printf("%s%s", role_names[role], rest == 0 ? "" : (rest & (rest - 1)) == 0 ? between : ", ");
            roles &= ~(UINT64_C(1) << role);
        }
}

/* Each window of a user, other than this one, in which one of these roles is active. */
static void say_windows(uint64_t user, uint64_t session, uint64_t counted)
{
    uint8_t answer[NUTRAMEZA_ANSWER_BYTES];
    for (uint64_t other = 0; other < NUTRAMEZA_SESSIONS; other++) {
        uint64_t shown = nutrameza_show(image, image_len, ledger, sizeof ledger, user, other, answer, sizeof answer);
        uint64_t held = nutrameza_is_done(shown) ? nutrameza_answer_roles(answer) & counted : 0;
        if (other != session && held != 0) {
            printf(" Close window %" PRIu64 ", which holds ", other);
            say_roles(held, " and ");
            printf(".");
        }
    }
}

/* An exclusion that is in the way: what it counts already decides what helps. */
static void say_exclusion(uint64_t user, uint64_t session, unsigned which, uint64_t counted, uint64_t members)
{
    printf("rule against ");
    say_roles(members, " with ");
    printf(".");
    if (counted == 0) {
        printf(" Ask for less at once%s.", which == NUTRAMEZA_SS_DMER ? ", the rest in another window" : "");
    } else if (which == NUTRAMEZA_MS_DMER) {
        say_windows(user, session, counted);
    } else {
        printf(which == NUTRAMEZA_SS_HMER ? " This window was used as " : " You have worked as ");
        say_roles(counted, " and ");
        printf(which == NUTRAMEZA_SS_HMER ? ". Open a new one." : ". Somebody else must do this.");
    }
    printf("\n");
}

/* What a user is told of a button that is refused in a window. */
static void why_not(uint64_t user, uint64_t session, const uint8_t *lower, const uint8_t *upper)
{
    uint8_t roles[NUTRAMEZA_OBSTACLE_BYTES];
    uint64_t told = nutrameza_obstacle(image, image_len, ledger, sizeof ledger, user, session, lower, NUTRAMEZA_SET_BYTES, upper,
                                       NUTRAMEZA_SET_BYTES, roles, sizeof roles);
    if (!nutrameza_is_done(told)) {
        printf("try again (%s)\n", nutrameza_word_of(nutrameza_number_of(told)));
        return;
    }
    uint64_t first = nutrameza_obstacle_first(roles), second = nutrameza_obstacle_second(roles);
    unsigned permission = nutrameza_obstacle_permission(told);
    switch (nutrameza_obstacle_kind_of(told)) {
    case NUTRAMEZA_OBSTACLE_OWN:
        printf("%s needs ", permissions[permission]);
        say_roles(first, " or ");
        printf("%s, which you are not. Ask the officer.\n", first == 0 ? "a role" : "");
        break;
    case NUTRAMEZA_OBSTACLE_UPPER:
        printf("%s needs ", permissions[permission]);
        say_roles(first, " or ");
        printf(", which may do more than this button is for. Tell its maker.\n");
        break;
    case NUTRAMEZA_OBSTACLE_LIMIT:
        printf("%s needs ", permissions[permission]);
        say_roles(first, " or ");
        printf(", and as many windows have that as may. Try again when one is closed.\n");
        break;
    default:
        say_exclusion(user, session, nutrameza_obstacle_which(told), first, second);
    }
}

/* A button that needs some permissions and may have some is pressed in a window. */
static void press(const char *button, uint64_t user, uint64_t session, unsigned needs, unsigned may_have)
{
    uint8_t lower[NUTRAMEZA_SET_BYTES] = {0}, upper[NUTRAMEZA_SET_BYTES] = {0}, answer[NUTRAMEZA_ANSWER_BYTES];
    nutrameza_write_word(lower, needs);
    nutrameza_write_word(upper, may_have);
    uint64_t returned = nutrameza_short_ask(image, image_len, ledger, sizeof ledger, user, session, lower, sizeof lower, upper,
                                            sizeof upper, answer, sizeof answer);
    printf("%s, window %" PRIu64 ", %s: ", users[user], session, button);
    if (nutrameza_is_done(returned)) {
        say_roles(nutrameza_answer_roles(answer), " and ");
        printf("\n");
    } else if (nutrameza_number_of(returned) == NUTRAMEZA_REFUSED_NONE) {
        why_not(user, session, lower, upper);
    } else {
        printf("refused, %s\n", nutrameza_word_of(nutrameza_number_of(returned)));
    }
}

static void open_window(uint64_t user)
{
    uint64_t returned = nutrameza_open(image, image_len, ledger, sizeof ledger, user);
    if (nutrameza_is_done(returned))
        printf("%s opens window %" PRIu64 "\n", users[user], nutrameza_extra_of(returned));
}

static void close_window(uint64_t user, uint64_t session)
{
    if (nutrameza_is_done(nutrameza_close(image, image_len, ledger, sizeof ledger, user, session)))
        printf("%s closes window %" PRIu64 "\n", users[user], session);
}

static void day(void)
{
    open_window(ANNA);
    press("records", ANNA, 0, READ_ID | READ_HEALTH_RECORDS, ALL);
    open_window(ANNA);
    press("send", ANNA, 1, READ_HEALTH_RECORDS | SEND_DATA, ALL);
    press("order", ANNA, 0, ORDER_DRUGS, ALL);
    press("order", ANNA, 1, ORDER_DRUGS, ALL);
    press("approve", ANNA, 1, APPROVE_ORDER, ALL);
    press("alarm", ANNA, 1, ANSWER_ALARM, ALL);
    open_window(BERT);
    press("prescribe", BERT, 0, PRESCRIBE, ALL);
    press("alarm", BERT, 0, ANSWER_ALARM, ALL);
    press("badge", BERT, 0, READ_ID, READ_ID);
    close_window(ANNA, 1);
    press("round", BERT, 0, GIVE_DRUGS | ANSWER_ALARM, ALL);
    press("alarm", BERT, 0, ANSWER_ALARM, ALL);
}

int main(int count, char **words)
{
    FILE *file = count == 2 ? fopen(words[1], "rb") : NULL;
    if (file == NULL) {
        fprintf(stderr, "why_not IMAGE\n");
        return 1;
    }
    image_len = fread(image, 1, sizeof image, file);
    fclose(file);
    if (!nutrameza_is_done(nutrameza_check(image, image_len))) {
        fprintf(stderr, "%s is refused\n", words[1]);
        return 1;
    }
    day();
    return 0;
}
