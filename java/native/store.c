/* The store's functions for Java. Everything is copied, in and out: no critical region is held while a database is
 * waited for. What a callback of Java throws is left pending, no callback is made after it, and it is thrown when the
 * function of the store has ended. Nothing is kept between calls but the handle, which Java has. */
#include <stdint.h>
#include <stdlib.h>
#include <string.h>

#include <nutrameza_store.h>

#include "nutrameza_StoreNative.h"
#include "thrown.h"

#define OF(name) JNICALL Java_nutrameza_StoreNative_##name
#define IS(name) nutrameza_StoreNative_##name

enum { BOUNDS = 2 * NUTRAMEZA_SET_BYTES, TOKEN = NUTRAMEZA_STORE_TOKEN_BYTES, NUMBERS = 4, LIST_NUMBERS = 3 };

/* ---- what comes from Java ---- */

static nutrameza_store *handle_of(jlong handle) { return (nutrameza_store *)(intptr_t)handle; }

/* A copy of a byte array, a zero behind it; NULL, with an exception pending, where there is no memory. */
static uint8_t *copy_of(JNIEnv *env, jbyteArray array, size_t *len)
{
    jsize size = (*env)->GetArrayLength(env, array);
    uint8_t *bytes = malloc((size_t)size + 1);
    if (bytes == NULL) {
        no_memory(env);
        return NULL;
    }
    (*env)->GetByteArrayRegion(env, array, 0, size, (jbyte *)bytes);
    if ((*env)->ExceptionCheck(env)) {
        free(bytes);
        return NULL;
    }
    bytes[size] = 0;
    *len = (size_t)size;
    return bytes;
}

/* A text, of which Java has sent the zero; NULL for none. */
static char *text_of(JNIEnv *env, jbyteArray array)
{
    size_t len;
    return array == NULL ? NULL : (char *)copy_of(env, array, &len);
}

/* So many bytes of an array that has just as many; 0 where an exception is pending. */
static int exactly(JNIEnv *env, jbyteArray array, uint8_t *bytes, jsize size)
{
    if ((*env)->GetArrayLength(env, array) != size) {
        wrong(env, "an array of another size");
        return 0;
    }
    (*env)->GetByteArrayRegion(env, array, 0, size, (jbyte *)bytes);
    return !(*env)->ExceptionCheck(env);
}

static int numbers_of(JNIEnv *env, jlongArray array, uint64_t *numbers, jsize count)
{
    jlong given[NUMBERS];
    (*env)->GetLongArrayRegion(env, array, 0, count, given);
    if ((*env)->ExceptionCheck(env))
        return 0;
    for (jsize k = 0; k < count; k++)
        numbers[k] = (uint64_t)given[k];
    return 1;
}

/* ---- what goes to Java ---- */

/* Numbers of 8 bytes, lowest first, and bytes behind their length. */
typedef struct {
    uint8_t *bytes;
    size_t len, room;
    int failed;
} packed;

static void put(packed *p, const void *bytes, size_t len)
{
    if (!p->failed && p->len + len > p->room) {
        size_t room = 2 * (p->len + len);
        uint8_t *grown = realloc(p->bytes, room);
        p->failed = grown == NULL;
        if (grown != NULL) {
            p->bytes = grown;
            p->room = room;
        }
    }
    if (p->failed)
        return;
    if (len > 0)
        memcpy(p->bytes + p->len, bytes, len);
    p->len += len;
}

static void put_number(packed *p, uint64_t number)
{
    uint8_t bytes[8];
    for (unsigned k = 0; k < 8; k++)
        bytes[k] = (uint8_t)(number >> 8 * k);
    put(p, bytes, sizeof bytes);
}

static void put_numbers(packed *p, const uint64_t *numbers, size_t count)
{
    for (size_t k = 0; k < count; k++)
        put_number(p, numbers[k]);
}

static void put_bytes(packed *p, const uint8_t *bytes, size_t len)
{
    put_number(p, bytes == NULL ? 0 : len);
    put(p, bytes, bytes == NULL ? 0 : len);
}

static void put_text(packed *p, const char *text)
{
    put_bytes(p, (const uint8_t *)text, text == NULL ? 0 : strlen(text));
}

/* An array of these bytes; NULL where an exception is pending. */
static jbyteArray array_of(JNIEnv *env, const void *bytes, size_t len)
{
    jbyteArray array = (*env)->NewByteArray(env, (jsize)len);
    if (array == NULL)
        return NULL;
    (*env)->SetByteArrayRegion(env, array, 0, (jsize)len, bytes);
    return (*env)->ExceptionCheck(env) ? NULL : array;
}

/* An element of an array of arrays; 0 where an exception is pending. */
static int put_element(JNIEnv *env, jobjectArray out, jsize at, const void *bytes, size_t len)
{
    jbyteArray array = array_of(env, bytes, len);
    if (array == NULL)
        return 0;
    (*env)->SetObjectArrayElement(env, out, at, array);
    (*env)->DeleteLocalRef(env, array);
    return !(*env)->ExceptionCheck(env);
}

/* Who is told rows. Failed: an exception is pending, and nobody is told any more. */
typedef struct {
    JNIEnv *env;
    jobject rows;
    jmethodID method;
    packed row;
    int failed;
} teller;

static int teller_of(JNIEnv *env, jobject rows, teller *t)
{
    jclass class = (*env)->GetObjectClass(env, rows);
    memset(t, 0, sizeof *t);
    t->env = env;
    t->rows = rows;
    t->method = (*env)->GetMethodID(env, class, "row", "([B)I");
    (*env)->DeleteLocalRef(env, class);
    return t->method != NULL;
}

/* Tells the row that was packed; what Java answers, and 1 where it throws. */
static int tell(teller *t)
{
    JNIEnv *env = t->env;
    jint answer = 1;
    if (t->row.failed)
        no_memory(env);
    jbyteArray array = t->row.failed ? NULL : array_of(env, t->row.bytes, t->row.len);
    if (array != NULL) {
        answer = (*env)->CallIntMethod(env, t->rows, t->method, array);
        t->failed = (*env)->ExceptionCheck(env);
        (*env)->DeleteLocalRef(env, array);
    } else {
        t->failed = 1;
    }
    return t->failed ? 1 : (int)answer;
}

/* Begins a row; 0 where nobody is told any more. */
static int begun(teller *t)
{
    t->row.len = 0;
    return !t->failed;
}

static void tell_ward(void *context, const nutrameza_store_ward *ward)
{
    teller *t = context;
    if (!begun(t))
        return;
    put_text(&t->row, ward->name);
    put_number(&t->row, ward->version);
    tell(t);
}

static void tell_session(void *context, const nutrameza_store_session *session)
{
    teller *t = context;
    if (!begun(t))
        return;
    put_numbers(&t->row, (const uint64_t[]){session->user, session->window, session->was}, 3);
    put_text(&t->row, session->host);
    put_number(&t->row, (uint64_t)session->at);
    tell(t);
}

static void tell_image(void *context, const nutrameza_store_image *image)
{
    teller *t = context;
    if (!begun(t))
        return;
    put_number(&t->row, image->version);
    put_bytes(&t->row, image->image, image->image_len);
    put_text(&t->row, image->host);
    put_number(&t->row, (uint64_t)image->at);
    tell(t);
}

static void tell_entry(void *context, const nutrameza_store_entry *e)
{
    teller *t = context;
    if (!begun(t))
        return;
    put_numbers(&t->row, (const uint64_t[]){e->user, e->order, e->version, e->window, e->returned, e->turn}, 6);
    put_text(&t->row, e->call);
    put_text(&t->row, e->host);
    put_number(&t->row, (uint64_t)e->at);
    put_bytes(&t->row, e->token, TOKEN);
    put_bytes(&t->row, e->args, e->args_len);
    put_bytes(&t->row, e->answer, NUTRAMEZA_ANSWER_BYTES);
    tell(t);
}

static void put_report(packed *p, const nutrameza_store_report *report)
{
    put_numbers(p, (const uint64_t[]){report->calls, report->differences, report->incidents}, 3);
    put_text(p, report->words);
}

static int tell_step(void *context, const nutrameza_store_report *so_far)
{
    teller *t = context;
    if (!begun(t))
        return 1;
    put_number(&t->row, 0);
    put_report(&t->row, so_far);
    return tell(t);
}

static void tell_finding(void *context, const nutrameza_store_finding *finding)
{
    teller *t = context;
    if (!begun(t))
        return;
    put_numbers(&t->row, (const uint64_t[]){1, finding->user, finding->order, (uint64_t)(finding->incident != 0)}, 4);
    put_text(&t->row, finding->words);
    tell(t);
}

/* ---- handles ---- */

JNIEXPORT jint OF(version)(JNIEnv *env, jclass class)
{
    (void)env;
    (void)class;
    return (jint)nutrameza_version();
}

JNIEXPORT jlong OF(connect)(JNIEnv *env, jclass class, jbyteArray name, jbyteArray host, jlongArray out)
{
    nutrameza_store *store = NULL;
    uint64_t returned = 0;
    char *named = text_of(env, name), *own = named == NULL ? NULL : text_of(env, host);
    (void)class;
    if (own != NULL) {
        returned = nutrameza_store_connect(named, own, &store);
        jlong handle = (jlong)(intptr_t)store;
        (*env)->SetLongArrayRegion(env, out, 0, 1, &handle);
        if ((*env)->ExceptionCheck(env))
            nutrameza_store_disconnect(store);
    }
    free(named);
    free(own);
    return (jlong)returned;
}

JNIEXPORT void OF(disconnect)(JNIEnv *env, jclass class, jlong handle)
{
    (void)env;
    (void)class;
    nutrameza_store_disconnect(handle_of(handle));
}

JNIEXPORT jbyteArray OF(error)(JNIEnv *env, jclass class, jlong handle)
{
    const char *words = nutrameza_store_error(handle_of(handle));
    (void)class;
    return array_of(env, words, strlen(words));
}

JNIEXPORT jbyteArray OF(wordOf)(JNIEnv *env, jclass class, jint number)
{
    const char *word = nutrameza_store_word_of((unsigned)number);
    (void)class;
    return array_of(env, word, strlen(word));
}

JNIEXPORT jlong OF(make)(JNIEnv *env, jclass class, jlong handle)
{
    (void)env;
    (void)class;
    return (jlong)nutrameza_store_make(handle_of(handle));
}

/* ---- the calls ---- */

typedef struct {
    int call;
    nutrameza_store *store;
    char *ward;
    uint64_t n[NUMBERS];
    uint8_t bounds[BOUNDS], token[TOKEN], roles[NUTRAMEZA_OBSTACLE_BYTES];
    const uint8_t *used; /* the token, or NULL for one that is made */
    nutrameza_store_reply reply;
} request;

static uint64_t requested(request *r)
{
    const uint8_t *lower = r->bounds, *upper = r->bounds + NUTRAMEZA_SET_BYTES;
    const uint64_t *n = r->n;
    nutrameza_store *s = r->store;
    switch (r->call) {
    case IS(OPEN): return nutrameza_store_open(s, r->ward, n[0], r->used, &r->reply);
    case IS(CLOSE): return nutrameza_store_close(s, r->ward, n[0], n[1], r->used, &r->reply);
    case IS(ADOPT): return nutrameza_store_adopt(s, r->ward, n[0], n[1], r->used, &r->reply);
    case IS(ASK):
        return nutrameza_store_ask(s, r->ward, n[0], n[1], lower, upper, n[2], n[3], r->used, &r->reply);
    case IS(SHORT_ASK): return nutrameza_store_short_ask(s, r->ward, n[0], n[1], lower, upper, r->used, &r->reply);
    case IS(SHOW): return nutrameza_store_show(s, r->ward, n[0], n[1], &r->reply);
    case IS(EXPLAIN): return nutrameza_store_explain(s, r->ward, n[0], n[1], n[2], &r->reply);
    default: return nutrameza_store_obstacle(s, r->ward, n[0], n[1], lower, upper, r->roles, &r->reply);
    }
}

static void reply_to(JNIEnv *env, const request *r, jbyteArray reply)
{
    packed p = {NULL, 0, 0, 0};
    const nutrameza_store_reply *told = &r->reply;
    put_numbers(&p, (const uint64_t[]){told->window, told->order, told->version, (uint64_t)(told->again != 0)}, 4);
    put(&p, told->answer, sizeof told->answer);
    put(&p, r->roles, sizeof r->roles);
    put(&p, told->token, sizeof told->token);
    if (p.failed)
        no_memory(env);
    else
        (*env)->SetByteArrayRegion(env, reply, 0, (jsize)p.len, (const jbyte *)p.bytes);
    free(p.bytes);
}

JNIEXPORT jlong OF(request)(JNIEnv *env, jclass class, jint call, jlong handle, jbyteArray ward, jlongArray numbers,
                            jbyteArray bounds, jbyteArray token, jbyteArray reply)
{
    request r;
    uint64_t returned = 0;
    (void)class;
    memset(&r, 0, sizeof r);
    r.call = call;
    r.store = handle_of(handle);
    if (!numbers_of(env, numbers, r.n, NUMBERS) || (bounds != NULL && !exactly(env, bounds, r.bounds, BOUNDS)) ||
        (token != NULL && !exactly(env, token, r.token, TOKEN)))
        return 0;
    r.used = token == NULL ? NULL : r.token;
    r.ward = text_of(env, ward);
    if (r.ward != NULL) {
        returned = requested(&r);
        reply_to(env, &r, reply);
    }
    free(r.ward);
    return (jlong)returned;
}

/* ---- wards, hosts, policies ---- */

JNIEXPORT jlong OF(create)(JNIEnv *env, jclass class, jlong handle, jbyteArray ward, jbyteArray image,
                           jbyteArray ledger)
{
    size_t image_len = 0, ledger_len = 0;
    uint64_t returned = 0;
    char *name = text_of(env, ward);
    uint8_t *policy = name == NULL ? NULL : copy_of(env, image, &image_len), *first = NULL;
    (void)class;
    if (policy != NULL && ledger != NULL)
        first = copy_of(env, ledger, &ledger_len);
    if (policy != NULL && (first != NULL || ledger == NULL))
        returned = nutrameza_store_create(handle_of(handle), name, policy, image_len, first, ledger_len);
    free(name);
    free(policy);
    free(first);
    return (jlong)returned;
}

JNIEXPORT jlong OF(release)(JNIEnv *env, jclass class, jlong handle, jbyteArray ward, jbyteArray host)
{
    uint64_t returned = 0;
    char *name = text_of(env, ward), *dead = name == NULL ? NULL : text_of(env, host);
    (void)class;
    if (dead != NULL)
        returned = nutrameza_store_release(handle_of(handle), name, dead);
    free(name);
    free(dead);
    return (jlong)returned;
}

JNIEXPORT jlong OF(policy)(JNIEnv *env, jclass class, jlong handle, jbyteArray ward, jbyteArray image, jint go_on,
                           jlongArray out)
{
    size_t image_len = 0;
    uint64_t returned = 0, stopped = 0;
    char *name = text_of(env, ward);
    uint8_t *policy = name == NULL ? NULL : copy_of(env, image, &image_len);
    (void)class;
    if (policy != NULL) {
        returned = nutrameza_store_policy(handle_of(handle), name, policy, image_len, (int)go_on, &stopped);
        jlong users = (jlong)stopped;
        (*env)->SetLongArrayRegion(env, out, 0, 1, &users);
    }
    free(name);
    free(policy);
    return (jlong)returned;
}

JNIEXPORT jlong OF(export)(JNIEnv *env, jclass class, jlong handle, jbyteArray ward, jobjectArray out)
{
    enum { LEDGER = NUTRAMEZA_LINE_BYTES * NUTRAMEZA_MAX_USERS };
    size_t image_len = 0, ledger_len = 0;
    uint64_t returned = 0;
    char *name = text_of(env, ward);
    uint8_t *image = name == NULL ? NULL : malloc(NUTRAMEZA_MAX_IMAGE_BYTES + LEDGER);
    (void)class;
    if (image != NULL) {
        uint8_t *ledger = image + NUTRAMEZA_MAX_IMAGE_BYTES;
        returned = nutrameza_store_export(handle_of(handle), name, image, &image_len, ledger, &ledger_len);
        if (nutrameza_is_done(returned) && put_element(env, out, 0, image, image_len))
            put_element(env, out, 1, ledger, ledger_len);
    } else if (name != NULL) {
        no_memory(env);
    }
    free(name);
    free(image);
    return (jlong)returned;
}

/* ---- lists and replays ---- */

typedef struct {
    nutrameza_store *store;
    char *ward, *host;
    uint64_t n[LIST_NUMBERS];
} list;

static uint64_t listed(jint call, const list *l, teller *t)
{
    nutrameza_store *s = l->store;
    switch (call) {
    case IS(WARDS): return nutrameza_store_wards(s, tell_ward, t);
    case IS(SESSIONS): return nutrameza_store_sessions(s, l->ward, tell_session, t);
    case IS(POLICIES): return nutrameza_store_policies(s, l->ward, tell_image, t);
    case IS(JOURNAL): return nutrameza_store_journal(s, l->ward, tell_entry, t);
    case IS(JOURNAL_FROM):
        return nutrameza_store_journal_from(s, l->ward, l->n[0], l->n[1], l->n[2], tell_entry, t);
    default: return nutrameza_store_adopt_all(s, l->ward, l->host, tell_session, t);
    }
}

JNIEXPORT jlong OF(list)(JNIEnv *env, jclass class, jint call, jlong handle, jbyteArray ward, jbyteArray host,
                         jlongArray numbers, jobject rows)
{
    list l = {handle_of(handle), NULL, NULL, {0}};
    teller t;
    uint64_t returned = 0;
    (void)class;
    if (!numbers_of(env, numbers, l.n, LIST_NUMBERS) || !teller_of(env, rows, &t))
        return 0;
    l.ward = text_of(env, ward);
    l.host = (*env)->ExceptionCheck(env) ? NULL : text_of(env, host);
    if (!(*env)->ExceptionCheck(env))
        returned = listed(call, &l, &t);
    free(l.ward);
    free(l.host);
    free(t.row.bytes);
    return (jlong)returned;
}

static uint64_t replayed(jint call, const list *l, teller *t, nutrameza_store_report *report)
{
    const nutrameza_store_watch watch = {t, tell_step, tell_finding};
    switch (call) {
    case IS(VERIFY): return nutrameza_store_verify(l->store, l->ward, report);
    case IS(VERIFY_WATCHED): return nutrameza_store_verify_watched(l->store, l->ward, &watch, report);
    case IS(MEND): return nutrameza_store_mend(l->store, l->ward, l->n[0], report);
    default: return nutrameza_store_cut(l->store, l->ward, l->n[0], report);
    }
}

JNIEXPORT jlong OF(replay)(JNIEnv *env, jclass class, jint call, jlong handle, jbyteArray ward, jlong number,
                           jobject rows, jobjectArray out)
{
    list l = {handle_of(handle), NULL, NULL, {(uint64_t)number}};
    teller t = {.failed = 0};
    nutrameza_store_report report;
    uint64_t returned = 0;
    (void)class;
    memset(&report, 0, sizeof report);
    if (rows != NULL && !teller_of(env, rows, &t))
        return 0;
    l.ward = text_of(env, ward);
    if (l.ward != NULL) {
        returned = replayed(call, &l, &t, &report);
        t.row.len = 0;
        if (!t.failed)
            put_report(&t.row, &report);
        if (t.row.failed)
            no_memory(env);
        else if (!t.failed)
            put_element(env, out, 0, t.row.bytes, t.row.len);
    }
    free(l.ward);
    free(t.row.bytes);
    return (jlong)returned;
}
