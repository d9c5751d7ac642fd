/* Faults at every step of a call: the client killed or stopped, the server stopped or killed, the connection cut, the
 * disk full. Afterwards the same token is answered, and the request stands in the journal once. */
#define _DEFAULT_SOURCE
#include <fcntl.h>
#include <signal.h>
#include <sys/resource.h>
#include <sys/stat.h>

#include "common.h"

/* An engine that counts the steps of a call, before and after each function, and at one of them does something. */
typedef struct {
    engine base;
    engine *inner;
    int at, wanted;
    void (*act)(void);
} stepped;

static void step(stepped *s)
{
    if (s->at++ == s->wanted)
        s->act();
}

static enum outcome done(stepped *s, enum outcome outcome)
{
    memcpy(s->base.words, s->inner->words, sizeof s->base.words);
    step(s);
    return outcome;
}

static enum outcome begin(engine *e, enum mode mode)
{
    stepped *s = (stepped *)e;
    step(s);
    return done(s, s->inner->begin(s->inner, mode));
}

static enum outcome queue(engine *e, int number, const cell *in, int count, on_row each, void *context)
{
    stepped *s = (stepped *)e;
    step(s);
    return done(s, s->inner->queue(s->inner, number, in, count, each, context));
}

static enum outcome flush(engine *e)
{
    stepped *s = (stepped *)e;
    return done(s, s->inner->flush(s->inner));
}

static enum outcome commit(engine *e)
{
    stepped *s = (stepped *)e;
    return done(s, s->inner->commit(s->inner));
}

static enum outcome settle(engine *e)
{
    stepped *s = (stepped *)e;
    return done(s, s->inner->settle(s->inner));
}

static void rollback(engine *e) { ((stepped *)e)->inner->rollback(((stepped *)e)->inner); }
static enum outcome make(engine *e) { return ((stepped *)e)->inner->make(((stepped *)e)->inner); }

static void finish(engine *e)
{
    ((stepped *)e)->inner->finish(((stepped *)e)->inner);
    free(e);
}

static stepped *watch_steps(int wanted, void (*act)(void))
{
    stepped *s = calloc(1, sizeof *s);
    s->base = (engine){begin, queue, flush, commit, settle, rollback, make, finish, SCHEMA, ""};
    s->inner = store->engine;
    s->wanted = wanted;
    s->act = act;
    store->engine = &s->base;
    return s;
}

static void kill_self(void) { raise(SIGKILL); }
static void stop_self(void) { raise(SIGSTOP); }

/* A request of each sort for a user: the window that it needs is opened before, and closed behind it. */
static record prepared(const char *ward, uint64_t call, uint64_t user)
{
    record r = {{0}, call, user, 0, 1u << NURSE, 0, {0}};
    new_token(r.token);
    if (call != OPEN)
        r.window = open_window(ward, user);
    return r;
}

/* The request is answered now, stands in the journal once, and its window is closed. */
static void answered_once(const char *ward, const record *r)
{
    nutrameza_store_reply reply;
    IS(nutrameza_number_of(insist(ward, r, &reply)), 0);
    IS((uint64_t)entries_near(ward, r, reply.order), 1);
    if (r->call == OPEN || r->call == ADOPT)
        IS(nutrameza_store_close(store, ward, r->user, reply.window, NULL, NULL), 0);
    if (r->call == SHORT_ASK)
        IS(nutrameza_store_close(store, ward, r->user, r->window, NULL, NULL), 0);
}

/* No window of a test before is open. */
static void start_clear(const char *ward)
{
    connect_as("clear", 0);
    clear(ward);
    hang_up();
}

static const uint64_t sorts[] = {OPEN, SHORT_ASK, ADOPT, CLOSE};

/* A child makes the request and is killed or stopped at a step; 0 if the request had no such step, and is done. */
static pid_t halted_at(const char *ward, const record *r, int wanted, void (*act)(void))
{
    int status;
    fflush(stdout);
    pid_t pid = fork();
    if (pid == 0) {
        nutrameza_store_reply reply;
        connect_as("step", wanted);
        nutrameza_store_show(store, ward, r->user, 0, &reply); /* the image is kept from here on */
        watch_steps(wanted, act);
        _exit(nutrameza_number_of(insist(ward, r, &reply)) != 0);
    }
    waitpid(pid, &status, WUNTRACED);
    MUST(!WIFEXITED(status) || status == 0);
    return WIFEXITED(status) ? 0 : pid;
}

/* steps WARD: the client killed before and after every step of open, short ask, adopt and close */
int test_steps(char **words)
{
    int steps = 0;
    connect_as("steps", 0);
    clear(words[0]);
    for (size_t sort = 0; sort < sizeof sorts / sizeof *sorts; sort++) {
        int more = 1;
        for (int wanted = 0; more; wanted++, steps++) {
            record r = prepared(words[0], sorts[sort], (uint64_t)(wanted % STAFF));
            more = halted_at(words[0], &r, wanted, kill_self) != 0;
            answered_once(words[0], &r);
        }
    }
    printf("%d kills\n", steps - 4);
    MUST(steps > 40);
    settled(words[0]);
    return wrong;
}

/* stopped WARD STEP..: a client stopped at these steps, each of a user of its own; the others go on, or are told busy
 * until it goes on */
int test_stopped(char **words)
{
    pid_t children[STAFF];
    record r[STAFF];
    int count = 0, status, lite = strncmp(name, "sqlite:", 7) == 0;
    connect_as("stopped", 0);
    clear(words[0]);
    for (; words[1 + count] != NULL; count++) {
        r[count] = prepared(words[0], SHORT_ASK, (uint64_t)count);
        fflush(stdout);
        if ((children[count] = fork()) != 0) {
            waitpid(children[count], &status, WUNTRACED);
            MUST(WIFSTOPPED(status));
            continue;
        }
        nutrameza_store_reply reply;
        connect_as("stopping", count);
        nutrameza_store_show(store, words[0], r[count].user, 0, &reply);
        watch_steps(atoi(words[1 + count]), stop_self);
        issue(words[0], &r[count], &reply);
        _exit(0);
    }
    double began = now();
    nutrameza_store_reply reply;
    if (lite) {
        IS(issue(words[0], &r[0], &reply), NUTRAMEZA_STORE_BUSY);
        kill(children[0], SIGCONT);
    }
    for (int k = 0; k < count; k++)
        answered_once(words[0], &r[k]);
    printf("%.1f s until all were answered\n", now() - began);
    MUST(now() - began < 20);
    for (int k = 0; k < count; k++) {
        kill(children[k], SIGCONT);
        waitpid(children[k], &status, 0);
        MUST(status == 0);
        IS((uint64_t)entries_of_token(words[0], r[k].token), 1);
    }
    settled(words[0]);
    return wrong;
}

/* The policy is changed while the client is stopped: the change is done at once, or waits until the client goes on. */
static void changed_beside(const char *ward, pid_t client, int limits)
{
    int status = -1;
    fflush(stdout);
    pid_t pid = fork();
    if (pid == 0) {
        connect_as("changing", limits);
        uint64_t returned = nutrameza_store_policy(store, ward, image, make_image(limits, NOBODY, STAFF, 0), 0, NULL);
        _exit(nutrameza_number_of(returned) != 0);
    }
    for (double end = now() + 0.5; now() < end && waitpid(pid, &status, WNOHANG) == 0;)
        nap(0.005);
    kill(client, SIGCONT);
    if (status == -1)
        waitpid(pid, &status, 0);
    MUST(status == 0);
    waitpid(client, &status, 0);
    MUST(status == 0);
}

/* changed WARD: the policy changed, to limits and back, while a client is stopped at each step of an ask; what it asked
 * for is done once, under the policy before or the one behind */
int test_changed(char **words)
{
    int steps = 0, more = 1;
    connect_as("changed", 0);
    clear(words[0]);
    for (; more; steps++) {
        record r = prepared(words[0], SHORT_ASK, (uint64_t)(steps % STAFF));
        pid_t client = halted_at(words[0], &r, steps / 2, stop_self);
        more = client != 0;
        if (more)
            changed_beside(words[0], client, steps % 2 == 0);
        answered_once(words[0], &r);
        settled(words[0]);
    }
    printf("%d changes\n", steps - 1);
    MUST(steps > 20);
    size_t len = make_image(strcmp(words[0], "limited") == 0, NOBODY, STAFF, 0);
    MUST(nutrameza_number_of(nutrameza_store_policy(store, words[0], image, len, 0, NULL)) == 0);
    settled(words[0]);
    return wrong;
}

static const char *how;

static void server_goes(void)
{
    char text[600];
    snprintf(text, sizeof text, "'%s' %s '%s'", getenv("STORE_SERVER"), how, getenv("STORE_SERVER_FOLDER"));
    if (system(text) != 0) {
        printf("the server did not start again\n");
        exit(1);
    }
}

/* server WARD crash|kill FIRST EVERY: the server goes at every so manieth step of an ask, the client lives */
int test_server(char **words)
{
    int wanted = atoi(words[2]), more = 1, steps = 0;
    how = words[1];
    start_clear(words[0]);
    for (; more; wanted += atoi(words[3]), steps++) {
        nutrameza_store_reply reply;
        connect_as("server", wanted);
        record r = prepared(words[0], SHORT_ASK, (uint64_t)(wanted % STAFF));
        stepped *s = watch_steps(wanted, server_goes);
        r.returned = insist(words[0], &r, &reply);
        more = s->at > wanted;
        s->wanted = -1;
        IS(r.returned, 0);
        answered_once(words[0], &r);
        hang_up();
    }
    connect_as("server", 0);
    printf("%d times\n", steps - 1);
    settled(words[0]);
    return wrong;
}

static void control(const char *path, int at, const char *mode)
{
    char text[300];
    snprintf(text, sizeof text, "%s.new", path);
    FILE *file = fopen(text, "w");
    fprintf(file, "%d %s", at, mode);
    fclose(file);
    rename(text, path);
}

/* One connection through the proxy, cut at a message; 0 if the call had no such message. Told: what was answered. */
static int cut_at(const char *ward, const record *r, const char *path, int at, const char *mode, uint64_t *told)
{
    nutrameza_store_reply reply;
    const char *direct = name;
    nutrameza_store *kept = store;
    name = getenv("STORE_PROXY");
    connect_as("cut", at);
    nutrameza_store_show(store, ward, r->user, 0, &reply);
    control(path, at, mode);
    *told = issue(ward, r, &reply);
    int was_cut = access(path, F_OK) != 0;
    remove(path);
    hang_up();
    store = kept;
    name = direct;
    return was_cut;
}

/* cuts WARD CONTROL CRASHES: the connection cut before, after and behind the answer of every message of an ask; where
 * the commit was done though the answer was lost, the record is still there after a crash of the server */
int test_cuts(char **words)
{
    static const char *const modes[] = {"before", "after", "answered"};
    int count[3] = {0, 0, 0}, unknown = 0, crashes = 0;
    how = "crash";
    start_clear(words[0]);
    for (int mode = 0; mode < 3; mode++) {
        int more = 1, left = atoi(words[2]);
        for (int at = 0; more; at++, count[mode]++) {
            uint64_t told;
            nutrameza_store_reply reply;
            connect_as("cuts", at);
            record r = prepared(words[0], SHORT_ASK, (uint64_t)(at % STAFF));
            more = cut_at(words[0], &r, words[1], at, modes[mode], &told);
            MUST(!more || told == NUTRAMEZA_STORE_UNKNOWN || told == NUTRAMEZA_STORE_FAILED || told == 0);
            unknown += told == NUTRAMEZA_STORE_UNKNOWN;
            IS(insist(words[0], &r, &reply), 0);
            MUST(told != NUTRAMEZA_STORE_FAILED || !reply.again); /* failed: nothing had changed */
            MUST(told != 0 || reply.again);                       /* done: it is on record */
            if (told == NUTRAMEZA_STORE_UNKNOWN && reply.again && left-- > 0) {
                server_goes();
                IS(insist(words[0], &r, &reply), 0);
                MUST(reply.again);
                crashes++;
            }
            answered_once(words[0], &r);
            hang_up();
        }
    }
    printf("%d, %d and %d cuts, %d unknown, %d of them done, and the server crashed\n", count[0], count[1], count[2],
           unknown, crashes);
    MUST(count[0] > 15 && count[1] > 15 && count[2] > 1 && unknown > 0 && crashes > 0);
    connect_as("cuts", 0);
    settled(words[0]);
    return wrong;
}

/* rolled WARD CONTROL: a commit that the server answers by ROLLBACK was not done */
int test_rolled(char **words)
{
    uint64_t told;
    nutrameza_store_reply reply;
    start_clear(words[0]);
    connect_as("rolled", 0);
    record r = prepared(words[0], SHORT_ASK, 4);
    MUST(cut_at(words[0], &r, words[1], 0, "rollback", &told));
    IS(told, NUTRAMEZA_STORE_FAILED);
    IS((uint64_t)entries_of_token(words[0], r.token), 0);
    IS(insist(words[0], &r, &reply), 0);
    MUST(!reply.again);
    answered_once(words[0], &r);
    settled(words[0]);
    return wrong;
}

static void unfit(const char *why)
{
    nutrameza_store *s = NULL;
    IS(nutrameza_store_connect(name, "h", &s), NUTRAMEZA_STORE_UNFIT);
    MUST(strstr(nutrameza_store_error(s), why) != NULL);
    IS(nutrameza_store_make(s), NUTRAMEZA_STORE_USAGE);
    nutrameza_store_disconnect(s);
}

/* unfit: a server with fsync off, and a replica */
int test_unfit(char **words)
{
    (void)words;
    sql("ALTER SYSTEM SET fsync = off");
    sql("SELECT pg_reload_conf()");
    nap(0.3);
    unfit("fsync");
    sql("ALTER SYSTEM RESET fsync");
    how = "standby";
    server_goes();
    unfit("replica");
    how = "primary";
    server_goes();
    connect_as("unfit", 0);
    settled("free");
    return wrong;
}

/* pool CONTROL: a pooler, which tells another process than the one that answers, is refused */
int test_pool(char **words)
{
    nutrameza_store *s = NULL;
    FILE *file = fopen(words[0], "w");
    fprintf(file, "pool");
    fclose(file);
    IS(nutrameza_store_connect(getenv("STORE_PROXY"), "h", &s), NUTRAMEZA_STORE_UNFIT);
    MUST(strstr(nutrameza_store_error(s), "pooler") != NULL);
    nutrameza_store_disconnect(s);
    remove(words[0]);
    return wrong;
}

/* durable WARD CALLS: what was told before a crash of the server is there behind it, the last answer too */
int test_durable(char **words)
{
    nutrameza_store_reply reply, after;
    how = "crash";
    start_clear(words[0]);
    connect_as("durable", 0);
    for (int round = 0; round < 2; round++) {
        record r = prepared(words[0], SHORT_ASK, (uint64_t)round);
        for (int k = 0; k < atoi(words[1]); k++) {
            new_token(r.token);
            r.lower = k % 2 ? 1u << DOCTOR : 1u << NURSE;
            IS(issue(words[0], &r, &reply), 0);
        }
        server_goes();
        IS(insist(words[0], &r, &after), 0);
        MUST(after.again && memcmp(after.answer, reply.answer, ANSWER) == 0);
        IS(nutrameza_store_close(store, words[0], r.user, r.window, NULL, NULL), 0);
    }
    settled(words[0]);
    return wrong;
}

/* full WARD FILLER ROOM: the disk is filled up while calls are made, then there is room again */
int test_full(char **words)
{
    char text[300];
    nutrameza_store_reply reply;
    uint64_t told[256] = {0}, returned = 0;
    connect_as("full", 0);
    clear(words[0]);
    record r = prepared(words[0], SHORT_ASK, 2);
    snprintf(text, sizeof text, "cat /dev/zero > '%s' 2> /dev/null", words[1]);
    MUST(system(text) != 0);
    long given = entries(words[0]);
    for (int k = 0; k < 400 && told[NUTRAMEZA_STORE_FAILED] + told[NUTRAMEZA_STORE_UNKNOWN] < 3; k++) {
        new_token(r.token);
        returned = issue(words[0], &r, &reply);
        told[nutrameza_number_of(returned)]++;
        given += returned == 0;
    }
    printf("full disk: %lu done, %lu failed, %lu unknown\n", (unsigned long)told[0],
           (unsigned long)told[NUTRAMEZA_STORE_FAILED], (unsigned long)told[NUTRAMEZA_STORE_UNKNOWN]);
    MUST(told[NUTRAMEZA_STORE_FAILED] + told[NUTRAMEZA_STORE_UNKNOWN] > 0);
    remove(words[1]);
    how = "up";
    if (strncmp(name, "sqlite:", 7) != 0)
        server_goes();
    IS(insist(words[0], &r, &reply), 0);
    IS((uint64_t)entries_of_token(words[0], r.token), 1);
    MUST(entries(words[0]) > given);
    clear(words[0]);
    settled(words[0]);
    return wrong;
}
