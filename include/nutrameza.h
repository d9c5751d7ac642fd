/* The session kit: policy image, ledger and role choice, for hosts in C99 and later or C++.
 *
 * Each call takes any numbers and any buffers, and either does its work or answers with one refusal, by number. A
 * refused call changes no byte of any buffer. A buffer is a pointer, then its length in bytes; the pointer may be NULL
 * where the length is 0. docs/START.md is where to begin, docs/REFERENCE.md has the calls one by one, as have the man
 * pages (nutrameza(7), nutrameza_open(3) and so on), and docs/OPERATIONS.md says what a host persists and when.
 *
 * Results. A call returns its number and its extra in one uint64_t. Don't take it for true or false, nor compare it
 *   with 0: a done open of session 1 returns 256. nutrameza_is_done() tells whether a call did what it is for.
 * Buffers. The buffers of a call share no byte: each pointer stands as if it were restrict, and those that are written
 *   are so declared. A run's ledger is given to no call as any other buffer.
 * Threads. The calls keep nothing, allocate nothing and take no lock. Any thread may call; calls on different ledgers
 *   may run at once and may share an image. On one ledger the host makes one call at a time.
 * Stack. A calling thread has 64 KiB of stack or more, which is tested and not proved.
 */
#ifndef NUTRAMEZA_H
#define NUTRAMEZA_H

#include <stddef.h>
#include <stdint.h>

#ifdef __cplusplus
extern "C" {
#endif

/* The version of this header. MAJOR rises where a ledger, an image or a call that a host has means something else or is
 * gone, MINOR where something is added, PATCH for anything else; CHANGELOG.md says what each version means. */
#define NUTRAMEZA_VERSION_MAJOR 1
#define NUTRAMEZA_VERSION_MINOR 0
#define NUTRAMEZA_VERSION_PATCH 0
#define NUTRAMEZA_VERSION_STRING "1.0.0"

/* A version as one number, so that versions compare as numbers do: 1.2.3 is 1002003. */
#define NUTRAMEZA_VERSION_OF(major, minor, patch) (1000000u * (major) + 1000u * (minor) + (patch))
#define NUTRAMEZA_VERSION \
    NUTRAMEZA_VERSION_OF(NUTRAMEZA_VERSION_MAJOR, NUTRAMEZA_VERSION_MINOR, NUTRAMEZA_VERSION_PATCH)

/* The compiler warns where a result is thrown away, if it can. */
#if defined(__GNUC__)
#define NUTRAMEZA_MUST_USE __attribute__((__warn_unused_result__))
#else
#define NUTRAMEZA_MUST_USE
#endif

/* C99's word, which C++ has not. */
#if defined(__GNUC__)
#define NUTRAMEZA_RESTRICT __restrict__
#elif !defined(__cplusplus) && defined(__STDC_VERSION__) && __STDC_VERSION__ >= 199901L
#define NUTRAMEZA_RESTRICT restrict
#else
#define NUTRAMEZA_RESTRICT
#endif

/* Limits of a policy image. */
#define NUTRAMEZA_MAX_USERS 64
#define NUTRAMEZA_MAX_ROLES 64
#define NUTRAMEZA_MAX_PERMISSIONS 256
#define NUTRAMEZA_MAX_WORDS 4096
#define NUTRAMEZA_WORD_BYTES 4
#define NUTRAMEZA_MAX_IMAGE_BYTES 16384
#define NUTRAMEZA_MAX_EXCLUSIONS 32
#define NUTRAMEZA_MAX_USER_ROLES 16
#define NUTRAMEZA_MAX_LIMIT 256

/* Sessions of a user (01: windows), numbered from 0. */
#define NUTRAMEZA_SESSIONS 8

/* Sizes in bytes: a user's line of the ledger, a permission set, an answer (roles, then permissions). */
#define NUTRAMEZA_LINE_BYTES 144
#define NUTRAMEZA_SET_BYTES 32
#define NUTRAMEZA_ROLES_BYTES 8
#define NUTRAMEZA_ANSWER_BYTES 40

/* Size in bytes of what an obstacle fills: two sets of roles. */
#define NUTRAMEZA_OBSTACLE_BYTES 16

/* Size in bytes of a set of users: user u is bit u mod 8 of byte u div 8. */
#define NUTRAMEZA_USERS_BYTES 8

/* Sessions of a user and bytes of a line in ledgers of the versions 0.1 to 0.5, which widen carries over and narrow
 * back. */
#define NUTRAMEZA_OLD_SESSIONS 4
#define NUTRAMEZA_OLD_LINE_BYTES 80

/* Size in bytes of a chain of roles, a byte a role. */
#define NUTRAMEZA_CHAIN_BYTES 64

/* Size in bytes of a grant table: permissions for each of 64 roles or, turned, roles for each of 256 permissions. */
#define NUTRAMEZA_TABLE_BYTES 2048

/* No clause text has more bytes. */
#define NUTRAMEZA_MAX_CLAUSES_BYTES 8388608

/* Answer numbers: done, or why a call is refused. One that is not here is a refusal: later versions may add some. */
enum nutrameza_number {
    NUTRAMEZA_DONE = 0,
    NUTRAMEZA_REFUSED_LENGTH = 1,      /* image: byte count not a multiple of 4, below 8 or above 16,384 */
    NUTRAMEZA_REFUSED_HEAD = 2,        /* image: first word not a head, a number outside its range, spare bits */
    NUTRAMEZA_REFUSED_KIND = 3,        /* image: a word of a kind that may not stand there */
    NUTRAMEZA_REFUSED_SPARE = 4,       /* image: spare bits set */
    NUTRAMEZA_REFUSED_RANGE = 5,       /* image: a number not below U, R or P; an exclusion's m above R, n below 2 or
                                        * above m; a limit's t below 2 or above 256 */
    NUTRAMEZA_REFUSED_REPEAT = 6,      /* image: a member already in this exclusion; senior equal to junior */
    NUTRAMEZA_REFUSED_CROWD = 7,       /* image: a 17th different role for a user; a 33rd exclusion */
    NUTRAMEZA_REFUSED_BALANCE = 8,     /* image: low 28 bits of the sum not zero */
    NUTRAMEZA_REFUSED_LEDGER = 9,      /* ledger: byte count not 144 times U; to be widened: not 80 times U */
    NUTRAMEZA_REFUSED_PERSON = 10,     /* user not below U */
    NUTRAMEZA_REFUSED_LINE = 11,       /* this user's line not sound; of a move, and of an ask, clause text or obstacle
                                        * under a policy with limits: a user's line not sound */
    NUTRAMEZA_REFUSED_SESSION = 12,    /* session above 7 */
    NUTRAMEZA_REFUSED_CLOSED = 13,     /* session not open */
    NUTRAMEZA_REFUSED_FULL = 14,       /* all eight sessions open */
    NUTRAMEZA_REFUSED_SET = 15,        /* a bound not 32 bytes */
    NUTRAMEZA_REFUSED_PERMISSION = 16, /* a bound with a permission not below P; a permission to be explained not
                                        * below P */
    NUTRAMEZA_REFUSED_BOUNDS = 17,     /* lower bound not within the upper */
    NUTRAMEZA_REFUSED_AIM = 18,        /* an aim above 2 */
    NUTRAMEZA_REFUSED_ROOM = 19,       /* a buffer not of the size that the call asks for; one below the tidy image or
                                        * the clause text */
    NUTRAMEZA_REFUSED_NONE = 20,       /* no admissible role set; no loop; no active role carries the permission;
                                        * nothing stands in the way of an ask */
    NUTRAMEZA_REFUSED_SCRIPT = 21,     /* unreadable line, given by the script program alone, counted by the survey */
    NUTRAMEZA_REFUSED_LOOP = 22,       /* image: senior words lead from a role back to it; tested between 8 and 9 */
    NUTRAMEZA_REFUSED_REACH = 23,      /* image: a user may activate more than 16 roles; tested between 22 and 9 */
    NUTRAMEZA_REFUSED_UPPER_SESSIONS = 24 /* ledger to be narrowed: a user has any of the sessions 4 to 7 open */
};

/* Aims of an ask. */
enum nutrameza_aim { NUTRAMEZA_ANY = 0, NUTRAMEZA_FEWEST = 1, NUTRAMEZA_MOST = 2 };

/* What an exclusion counts: its members active in the session; in any open session of the user; in the session at
 * any time since it was opened; in any session of the user at any time. */
enum nutrameza_exclusion_kind {
    NUTRAMEZA_SS_DMER = 0,
    NUTRAMEZA_MS_DMER = 1,
    NUTRAMEZA_SS_HMER = 2,
    NUTRAMEZA_MS_HMER = 3
};

/* What stands in the way of an ask, in the order in which they are tried: a permission that no role of the user
 * carries; one that comes only with roles that carry something outside the upper bound; one whose roles are all
 * barred by limits; an exclusion. */
enum nutrameza_obstacle_kind {
    NUTRAMEZA_OBSTACLE_OWN = 1,
    NUTRAMEZA_OBSTACLE_UPPER = 2,
    NUTRAMEZA_OBSTACLE_LIMIT = 3,
    NUTRAMEZA_OBSTACLE_EXCLUSION = 4
};

/* A call returns its number plus 256 times its extra. The extra is 0 but for:
 *
 *   call            number   extra
 *   any             1 to 8   the place of the refused word; the head is place 0
 *   any but loop    22       the lowest role on a loop
 *   any but loop    23       the lowest user who may activate more than 16 roles
 *   loop            done     the length of the chain
 *   tidy            done     how many words it wrote
 *   open            done     the session that it took, 0 to 7
 *   explain         done     64 times the role plus its granting role: nutrameza_explained_role, _granting_role
 *   obstacle        done     the kind plus 8 times what it is about: nutrameza_obstacle_kind_of, _permission, _which
 *                            and _n
 *   stopped         done     how many users it told
 *   clauses         done     the bytes of the text
 *   ask, short_ask,
 *   clauses,
 *   obstacle        11       0 for the asker's line, else 1 more than the lowest user whose line is not sound:
 *                            nutrameza_unsound_user
 *   widen, narrow   11       the lowest user in the way
 *   narrow          24       the lowest user in the way
 *
 * nutrameza_turn and nutrameza_unturn know no image and answer 0 or 19. */
static inline unsigned nutrameza_number_of(uint64_t returned) { return (unsigned)(returned % 256); }
static inline uint64_t nutrameza_extra_of(uint64_t returned) { return returned / 256; }

/* 1 if a call did what it is for, 0 if it was refused. */
static inline int nutrameza_is_done(uint64_t returned) { return nutrameza_number_of(returned) == NUTRAMEZA_DONE; }

/* The version that a program was compiled for, as NUTRAMEZA_VERSION has it. */
static inline uint32_t nutrameza_version(void) { return NUTRAMEZA_VERSION; }

/* The version of the shared library that a program runs with, likewise. The archive does not have this function: it
 * holds the proved calls alone, and a program is linked with the one that it was built for. */
uint32_t nutrameza_shared_version(void);

/* What a done explain returned: the active role, and the role at or below it that holds the grant. */
static inline unsigned nutrameza_explained_role(uint64_t returned)
{
    return (unsigned)(nutrameza_extra_of(returned) / NUTRAMEZA_MAX_ROLES);
}
static inline unsigned nutrameza_granting_role(uint64_t returned)
{
    return (unsigned)(nutrameza_extra_of(returned) % NUTRAMEZA_MAX_ROLES);
}

/* What a done obstacle returned: its kind; of the kinds own, upper and limit the permission that it is about; of the
 * kind exclusion what it counts (an enum nutrameza_exclusion_kind) and its n. */
static inline unsigned nutrameza_obstacle_kind_of(uint64_t returned)
{
    return (unsigned)(nutrameza_extra_of(returned) % 8);
}
static inline unsigned nutrameza_obstacle_permission(uint64_t returned)
{
    return (unsigned)(nutrameza_extra_of(returned) / 8);
}
static inline unsigned nutrameza_obstacle_which(uint64_t returned)
{
    return (unsigned)(nutrameza_extra_of(returned) / 8 % 4);
}
static inline unsigned nutrameza_obstacle_n(uint64_t returned) { return (unsigned)(nutrameza_extra_of(returned) / 32); }

/* Whose line an ask, a clause text or an obstacle by a user was refused for by 11: the user's own, or another's. */
static inline uint64_t nutrameza_unsound_user(uint64_t returned, uint64_t user)
{
    return nutrameza_extra_of(returned) == 0 ? user : nutrameza_extra_of(returned) - 1;
}

/* The register's word for an answer number; "unknown" for one that no call gives. */
static inline const char *nutrameza_word_of(unsigned number)
{
    static const char *const words[] = {
        "done", "length", "head", "kind", "spare", "range", "repeat", "crowd", "balance", "ledger", "person",
        "line", "session", "closed", "full", "set", "permission", "bounds", "aim", "room", "none", "script", "loop",
        "reach", "upper sessions",
    };
    return number < sizeof words / sizeof words[0] ? words[number] : "unknown";
}

/* A permission set is 32 bytes, and permission p is bit p mod 8 of byte p div 8. This adds one; a number above 255
 * is in no set and changes nothing. */
static inline void nutrameza_add_permission(uint8_t *set, uint32_t permission)
{
    if (permission < NUTRAMEZA_MAX_PERMISSIONS)
        set[permission / 8] = (uint8_t)(set[permission / 8] | 1u << permission % 8);
}

/* 1 if the set has the permission, else 0. */
static inline int nutrameza_has_permission(const uint8_t *set, uint32_t permission)
{
    return permission < NUTRAMEZA_MAX_PERMISSIONS && (set[permission / 8] & 1u << permission % 8) != 0;
}

/* The roles of a filled answer: role r is bit r. */
static inline uint64_t nutrameza_answer_roles(const uint8_t *answer)
{
    uint64_t roles = 0;
    for (unsigned byte = NUTRAMEZA_ROLES_BYTES; byte > 0; byte--)
        roles = roles << 8 | answer[byte - 1];
    return roles;
}

/* The two sets that a done obstacle filled: role r is bit r. */
static inline uint64_t nutrameza_obstacle_first(const uint8_t *roles) { return nutrameza_answer_roles(roles); }
static inline uint64_t nutrameza_obstacle_second(const uint8_t *roles)
{
    return nutrameza_answer_roles(roles + NUTRAMEZA_ROLES_BYTES);
}

/* The permission set of a filled answer: all that its roles carry. */
static inline const uint8_t *nutrameza_answer_permissions(const uint8_t *answer)
{
    return answer + NUTRAMEZA_ROLES_BYTES;
}

/* The words of a policy image: a head, then the entries in any order, then the end. A number that does not fit its
 * field gives the word 0, which every check refuses at its place; one that fits is left to the check. */

/* The head: how many users, roles and permissions there are. */
static inline uint32_t nutrameza_head_word(uint32_t users, uint32_t roles, uint32_t permissions)
{
    if (users > 127 || roles > 127 || permissions > 511)
        return 0;
    return UINT32_C(1) << 28 | users << 21 | roles << 14 | permissions << 5;
}

/* The user may switch the role on, and every role below it. */
static inline uint32_t nutrameza_assignment_word(uint32_t user, uint32_t role)
{
    if (user > 63 || role > 63)
        return 0;
    return UINT32_C(2) << 28 | user << 22 | role << 16;
}

/* The role carries the permission. */
static inline uint32_t nutrameza_grant_word(uint32_t role, uint32_t permission)
{
    if (role > 63 || permission > 255)
        return 0;
    return UINT32_C(3) << 28 | role << 22 | permission << 14;
}

/* The senior role carries what the junior one carries, and whoever may activate it may activate the junior one. No
 * chain of these may lead from a role back to it. */
static inline uint32_t nutrameza_senior_word(uint32_t senior, uint32_t junior)
{
    if (senior > 63 || junior > 63)
        return 0;
    return UINT32_C(4) << 28 | senior << 22 | junior << 16;
}

/* Fewer than n of m members may be counted; the kind says over what. The m member words follow at once. The check
 * refuses an n of 1, which would bar each member from everyone: 2 lets no two of them be counted together. */
static inline uint32_t nutrameza_exclusion_word(uint32_t kind, uint32_t n, uint32_t m)
{
    if (kind > 3 || n > 127 || m > 127)
        return 0;
    return UINT32_C(5) << 28 | kind << 26 | n << 19 | m << 12;
}

/* A member of the exclusion before it. */
static inline uint32_t nutrameza_member_word(uint32_t role)
{
    if (role > 63)
        return 0;
    return UINT32_C(6) << 28 | role << 22;
}

/* Fewer than t sessions, over all users, may hold the role (001: CARD); of several for a role the smallest t counts.
 * The check accepts a t of 2 to 256. */
static inline uint32_t nutrameza_limit_word(uint32_t role, uint32_t t)
{
    if (role > 63 || t > 511)
        return 0;
    return UINT32_C(7) << 28 | role << 22 | t << 13;
}

/* The end: it balances the words before it. */
static inline uint32_t nutrameza_end_word(const uint32_t *words, size_t count)
{
    uint32_t sum = 0;
    for (size_t place = 0; place < count; place++)
        sum += words[place];
    return UINT32_C(15) << 28 | ((UINT32_C(0) - sum) & UINT32_C(0x0FFFFFFF));
}

/* Writes a word as four bytes of an image, the lowest first. */
static inline void nutrameza_write_word(uint8_t *bytes, uint32_t word)
{
    for (unsigned byte = 0; byte < NUTRAMEZA_WORD_BYTES; byte++)
        bytes[byte] = (uint8_t)(word >> 8 * byte & 255);
}

/* Writes words as the bytes of an image. */
static inline void nutrameza_write_words(uint8_t *image, const uint32_t *words, size_t count)
{
    for (size_t place = 0; place < count; place++)
        nutrameza_write_word(image + NUTRAMEZA_WORD_BYTES * place, words[place]);
}

/* What the head of an image says, and the bytes of a ledger under it. These read bytes and judge none: of an image that
 * the check accepts they are its users, roles and permissions, of other bytes whatever stands there; 0 for fewer than
 * four bytes. */
static inline uint32_t nutrameza_image_head(const uint8_t *image, size_t image_len)
{
    if (image_len < NUTRAMEZA_WORD_BYTES)
        return 0;
    return (uint32_t)image[0] | (uint32_t)image[1] << 8 | (uint32_t)image[2] << 16 | (uint32_t)image[3] << 24;
}
static inline unsigned nutrameza_image_users(const uint8_t *image, size_t image_len)
{
    return (unsigned)(nutrameza_image_head(image, image_len) >> 21 & 127);
}
static inline unsigned nutrameza_image_roles(const uint8_t *image, size_t image_len)
{
    return (unsigned)(nutrameza_image_head(image, image_len) >> 14 & 127);
}
static inline unsigned nutrameza_image_permissions(const uint8_t *image, size_t image_len)
{
    return (unsigned)(nutrameza_image_head(image, image_len) >> 5 & 511);
}
static inline size_t nutrameza_ledger_bytes(const uint8_t *image, size_t image_len)
{
    return (size_t)NUTRAMEZA_LINE_BYTES * nutrameza_image_users(image, image_len);
}

/* The user's line of a ledger, 144 bytes; NULL where the ledger does not reach so far. */
static inline const uint8_t *nutrameza_line(const uint8_t *ledger, size_t ledger_len, uint64_t user)
{
    if (user >= ledger_len / NUTRAMEZA_LINE_BYTES)
        return NULL;
    return ledger + NUTRAMEZA_LINE_BYTES * (size_t)user;
}

/* Which sessions of a user a ledger has open, session s as bit s, and whether it has one open: 1 or 0. These too judge
 * nothing, the line may be unsound; they are 0 for a user or a session that the ledger does not have. */
static inline unsigned nutrameza_open_sessions(const uint8_t *ledger, size_t ledger_len, uint64_t user)
{
    const uint8_t *line = nutrameza_line(ledger, ledger_len, user);
    return line == NULL ? 0 : line[0];
}
static inline int nutrameza_is_open(const uint8_t *ledger, size_t ledger_len, uint64_t user, uint64_t session)
{
    return session < NUTRAMEZA_SESSIONS && (nutrameza_open_sessions(ledger, ledger_len, user) >> session & 1) != 0;
}

/* Check judges an image: 0, 1 to 8, 22 or 23. */
uint64_t nutrameza_check(const uint8_t *image, size_t image_len) NUTRAMEZA_MUST_USE;

/* Loop shows why an image is refused by 22: it fills the chain, 64 bytes, with a shortest chain of senior words from
 * the lowest role on a loop down and back to it, a byte a role, each directly below the one before and the first
 * directly below that role, which stands only last; of the shortest the lowest role by role; zeros after. The extra is
 * its length. Refusals 1 to 8, 19, and 20 exactly if there is no loop. */
uint64_t nutrameza_loop(const uint8_t *image, size_t image_len, uint8_t *NUTRAMEZA_RESTRICT chain, size_t chain_len)
    NUTRAMEZA_MUST_USE;

/* Tidy writes the tidy image, the one that all images of the same meaning share: head, assignments, grants, seniors,
 * exclusions, limits, each group ascending by its fields, nothing repeated; exclusions by kind, n, then the number of
 * the member set (role r counts 2 to the power r), members ascending; of a role's limits the smallest; the end word
 * that balances them. It is written at the start of the buffer, no byte after it changes, and the extra is the number
 * of its words: never more than the image has, so that a buffer of image_len bytes is enough. Refusals 1 to 8, 22, 23,
 * and 19 if the buffer is smaller than the tidy image. */
uint64_t nutrameza_tidy(const uint8_t *image, size_t image_len, uint8_t *NUTRAMEZA_RESTRICT out, size_t out_len)
    NUTRAMEZA_MUST_USE;

/* Table fills 2,048 bytes with the closed grant table, who carries what after seniority: 32 bytes for each of 64 roles,
 * a permission set with its bits as in a bound; the rows of roles that the policy does not have are zero. Refusals 1 to
 * 8, 22, 23, and 19 for another size. */
uint64_t nutrameza_table(const uint8_t *image, size_t image_len, uint8_t *NUTRAMEZA_RESTRICT table, size_t table_len)
    NUTRAMEZA_MUST_USE;

/* Turn rearranges 2,048 bytes: bit p of row r, of 64 rows of 32 bytes, goes to bit r of row p, of 256 rows of 8 bytes.
 * A turned grant table has for each permission the roles that carry it, role r as bit r mod 8 of byte r div 8. Unturn
 * is the inverse: either undoes the other, for any bytes. Refusal 19 for a source or target of another size. */
uint64_t nutrameza_turn(const uint8_t *source, size_t source_len, uint8_t *NUTRAMEZA_RESTRICT target,
                        size_t target_len) NUTRAMEZA_MUST_USE;
uint64_t nutrameza_unturn(const uint8_t *source, size_t source_len, uint8_t *NUTRAMEZA_RESTRICT target,
                          size_t target_len) NUTRAMEZA_MUST_USE;

/* 1 if role r carries permission p by a grant table that nutrameza_table filled, else 0. */
static inline int nutrameza_table_has(const uint8_t *table, uint32_t role, uint32_t permission)
{
    return role < NUTRAMEZA_MAX_ROLES && nutrameza_has_permission(table + NUTRAMEZA_SET_BYTES * role, permission);
}

/* The roles that carry permission p by a turned grant table: role r is bit r. None for a permission above 255. */
static inline uint64_t nutrameza_turned_roles(const uint8_t *turned, uint32_t permission)
{
    if (permission >= NUTRAMEZA_MAX_PERMISSIONS)
        return 0;
    return nutrameza_answer_roles(turned + NUTRAMEZA_ROLES_BYTES * permission);
}

/* The calls below judge the image first, as check does: 1 to 8, then 22 and 23, then the others by number.
 *
 * Open takes the user's lowest closed session, empty; the extra is that session. Refusals 1 to 8, 22, 23, 9 to 11
 * and 14. */
uint64_t nutrameza_open(const uint8_t *image, size_t image_len, uint8_t *NUTRAMEZA_RESTRICT ledger, size_t ledger_len,
                        uint64_t user) NUTRAMEZA_MUST_USE;

/* Close ends a session; what was active in it stays in the user's history. Refusals 1 to 8, 22, 23, 9 to 13. */
uint64_t nutrameza_close(const uint8_t *image, size_t image_len, uint8_t *NUTRAMEZA_RESTRICT ledger,
                         size_t ledger_len, uint64_t user, uint64_t session) NUTRAMEZA_MUST_USE;

/* Ask replaces the session's active roles by the best set that carries all of the lower bound and nothing outside
 * the upper, and fills the answer: 8 bytes of roles, 32 of what they carry. Permission p is bit p mod 8 of byte
 * p div 8. Refusals 1 to 8, 22, 23, 9 to 13 and 15 to 20.
 *
 * Under a policy with limits it looks at all lines, and so do a clause text and an obstacle: a role is barred where
 * t - 1 or more sessions other than this one hold it, over all users, and 11 refuses the call if any line is not
 * sound. */
uint64_t nutrameza_ask(const uint8_t *image, size_t image_len, uint8_t *NUTRAMEZA_RESTRICT ledger, size_t ledger_len,
                       uint64_t user, uint64_t session, const uint8_t *lower, size_t lower_len, const uint8_t *upper,
                       size_t upper_len, uint64_t permission_aim, uint64_t role_aim,
                       uint8_t *NUTRAMEZA_RESTRICT answer, size_t answer_len) NUTRAMEZA_MUST_USE;

/* A short ask is an ask whose aims are both fewest: the fewest permissions, then the fewest roles. Refusals as of ask,
 * never 18. */
uint64_t nutrameza_short_ask(const uint8_t *image, size_t image_len, uint8_t *NUTRAMEZA_RESTRICT ledger,
                             size_t ledger_len, uint64_t user, uint64_t session, const uint8_t *lower,
                             size_t lower_len, const uint8_t *upper, size_t upper_len,
                             uint8_t *NUTRAMEZA_RESTRICT answer, size_t answer_len) NUTRAMEZA_MUST_USE;

/* Show fills the answer with the session's active roles and what they carry; it changes no ledger byte.
 * Refusals 1 to 8, 22, 23, 9 to 13 and 19. */
uint64_t nutrameza_show(const uint8_t *image, size_t image_len, const uint8_t *ledger, size_t ledger_len,
                        uint64_t user, uint64_t session, uint8_t *NUTRAMEZA_RESTRICT answer, size_t answer_len)
    NUTRAMEZA_MUST_USE;

/* Explain says through which roles an open session carries a permission: the extra is 64 times the lowest active role
 * that carries it plus its granting role, the lowest-numbered role at or below that one which holds the grant. It
 * changes no byte. Refusals 1 to 8, 22, 23, 9 to 13, 16, and 20 if no active role carries the permission. */
uint64_t nutrameza_explain(const uint8_t *image, size_t image_len, const uint8_t *ledger, size_t ledger_len,
                           uint64_t user, uint64_t session, uint64_t permission) NUTRAMEZA_MUST_USE;

/* Obstacle says what stands in the way of an ask with these bounds, the first of these that holds: the extra is the
 * kind plus 8 times what it is about, and the buffer, 16 bytes, is filled with two sets of roles, 8 bytes each.
 *
 * 1 own: the lowest permission of the lower bound that no role which the user may activate carries. First set: the
 *   roles of the policy that carry it.
 * 2 upper: the lowest permission of the lower bound for which every role that the user may activate and that carries
 *   it carries something outside the upper bound too. First set: those roles.
 * 3 limit: the lowest permission of the lower bound for which every role that the user may activate and that carries
 *   it and nothing outside the upper bound is barred by a limit. First set: those roles.
 * 4 exclusion: the first exclusion in the order of the tidy image with which no role set is left. It is about its
 *   kind (0 to 3) plus 4 times n. First set: its members that are counted already, whatever is made active in this
 *   session; second set: its members.
 *
 * The second set of the kinds 1 to 3 is empty. It changes no ledger byte. Refusals 1 to 8, 22, 23, 9 to 13, 15 to 17,
 * 19 for another buffer size, and 20 exactly if nothing stands in the way. */
uint64_t nutrameza_obstacle(const uint8_t *image, size_t image_len, const uint8_t *ledger, size_t ledger_len,
                            uint64_t user, uint64_t session, const uint8_t *lower, size_t lower_len,
                            const uint8_t *upper, size_t upper_len, uint8_t *NUTRAMEZA_RESTRICT roles,
                            size_t roles_len) NUTRAMEZA_MUST_USE;

/* Stopped tells, before a site puts an image in place, whom it would stop: it fills 8 bytes with the set of users whose
 * line of the ledger is not sound under the image, user u as bit u, and the extra is how many they are. A user is in
 * the set exactly if that user's open on this ledger is refused by 11, and every other call of that user is too. It
 * reads the ledger, which has a zero line for each user that the image adds, and changes no byte of it. Refusals 1 to
 * 8, 22, 23, 9, and 19 for another buffer size. docs/CHANGING.md says how a site changes a policy with windows open. */
uint64_t nutrameza_stopped(const uint8_t *image, size_t image_len, const uint8_t *ledger, size_t ledger_len,
                           uint8_t *NUTRAMEZA_RESTRICT users, size_t users_len) NUTRAMEZA_MUST_USE;

/* 1 if the set of users has the user, else 0. */
static inline int nutrameza_has_user(const uint8_t *users, uint64_t user)
{
    return user < NUTRAMEZA_MAX_USERS && (users[user / 8] & 1u << user % 8) != 0;
}

/* Widen carries a ledger of four sessions a user, 80 bytes a line, over into one of eight, 144 bytes a line: each
 * user's history and each session's bytes stand under their numbers, the new sessions are closed. It reads the old
 * ledger and fills the new one. Refusals 1 to 8, 22, 23, 9 for the old ledger's length, 19 for the new one's, and from
 * user 0 up 11 for a line that is not sound; the extra is that user. Narrowing what it fills gives the old bytes. */
uint64_t nutrameza_widen(const uint8_t *image, size_t image_len, const uint8_t *old_ledger, size_t old_ledger_len,
                         uint8_t *NUTRAMEZA_RESTRICT new_ledger, size_t new_ledger_len) NUTRAMEZA_MUST_USE;

/* Narrow carries a ledger of eight sessions a user back into one of four, likewise. Refusals as of widen, and for each
 * user after 11 also 24 where any of the sessions 4 to 7 is open. Widening what it fills gives the old bytes. */
uint64_t nutrameza_narrow(const uint8_t *image, size_t image_len, const uint8_t *old_ledger, size_t old_ledger_len,
                          uint8_t *NUTRAMEZA_RESTRICT new_ledger, size_t new_ledger_len) NUTRAMEZA_MUST_USE;

/* Clauses writes an ask as weighted clauses for a PMaxSAT program, in the classic DIMACS form with a 'p wcnf' line,
 * into the first bytes of a buffer: the extra is how many. docs/CLAUSES.md has the rule for the text, in which a barred
 * role is none of the user's. The numbers and bounds are those of ask. It changes no ledger byte and no byte of the
 * buffer after the text. Refusals 1 to 8, 22, 23, 9 to 13, 15 to 18, and 19 if the text is longer than the buffer;
 * never 20, since an ask without an admissible role set has a text too. */
uint64_t nutrameza_clauses(const uint8_t *image, size_t image_len, const uint8_t *ledger, size_t ledger_len,
                           uint64_t user, uint64_t session, const uint8_t *lower, size_t lower_len,
                           const uint8_t *upper, size_t upper_len, uint64_t permission_aim, uint64_t role_aim,
                           uint8_t *NUTRAMEZA_RESTRICT out, size_t out_len) NUTRAMEZA_MUST_USE;

#ifdef __cplusplus
}
#endif

#endif
