/* The windows of a host that died: closed, or taken over. Each is a call of its own; a window that was closed
 * meanwhile, even if its session is open again, is left alone. */
#include <string.h>

#include "store.h"

typedef struct {
    const char *host;
    size_t count;
    uint64_t user[USERS * NUTRAMEZA_SESSIONS], window[USERS * NUTRAMEZA_SESSIONS];
} owned;

static void take_owned(void *context, const nutrameza_store_session *session)
{
    owned *o = context;
    if (strcmp(session->host, o->host) != 0 || o->count == USERS * NUTRAMEZA_SESSIONS)
        return;
    o->user[o->count] = session->user;
    o->window[o->count++] = session->window;
}

static uint64_t windows_of(nutrameza_store *s, const char *ward, const char *host, owned *o)
{
    o->host = host;
    o->count = 0;
    return host == NULL ? NUTRAMEZA_STORE_USAGE : nutrameza_store_sessions(s, ward, take_owned, o);
}

static int left_alone(uint64_t returned) { return returned == NUTRAMEZA_STORE_GONE || returned == KIT_CLOSED; }

uint64_t nutrameza_store_release(nutrameza_store *s, const char *ward, const char *host)
{
    owned o;
    uint64_t closed = 0, returned = windows_of(s, ward, host, &o);
    for (size_t k = 0; k < o.count && returned == 0; k++) {
        returned = nutrameza_store_close(s, ward, o.user[k], o.window[k], NULL, NULL);
        closed += returned == 0;
        returned = left_alone(returned) ? 0 : returned;
    }
    return returned ? returned : 256 * closed;
}

uint64_t nutrameza_store_adopt_all(nutrameza_store *s, const char *ward, const char *host,
                                   void (*each)(void *, const nutrameza_store_session *), void *context)
{
    owned o;
    nutrameza_store_reply reply;
    uint64_t taken = 0, returned = windows_of(s, ward, host, &o);
    for (size_t k = 0; k < o.count && returned == 0; k++) {
        returned = nutrameza_store_adopt(s, ward, o.user[k], o.window[k], NULL, &reply);
        nutrameza_store_session told = {o.user[k], reply.window, o.window[k], s->host, 0};
        if (returned == 0 && each != NULL)
            each(context, &told);
        taken += returned == 0;
        returned = left_alone(returned) ? 0 : returned;
    }
    return returned ? returned : 256 * taken;
}
