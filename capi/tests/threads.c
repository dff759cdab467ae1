/* Pairs of members of a room, each pair in a thread of its own, and then its agents and guards in another thread: what they are given is the same in each. */
#include <pthread.h>

#include "check.h"
#include "room_text.h"

enum { THREADS = 4, STROKES = 30 };

struct pair {
    srm_agent *members[2];
    srm_guard *guards[2];
    uint64_t now;
    int given;
};

static void *begin(void *data)
{
    struct pair *pair = data;
    srm_room *room;
    if (srm_room_read(&room, OUR_ROOM, sizeof OUR_ROOM - 1, NULL) != SRM_OK)
        return NULL;
    for (uint8_t me = 0; me < 2; me++) {
        srm_config config;
        srm_config_default(&config);
        if (srm_room_config(room, me, &config) != SRM_OK || srm_room_guard(&pair->guards[me], room, me, 1) != SRM_OK || srm_agent_new(&pair->members[me], &config, me, 0) != SRM_OK)
            return NULL;
    }
    srm_room_free(room);
    for (int i = 0; i < STROKES; i++)
        if (srm_agent_draw(pair->members[0], SRM_FIRST_PAGE, "a stroke", 8, 0, NULL) != SRM_OK)
            return NULL;
    return pair;
}

static void *end(void *data)
{
    struct pair *pair = data;
    int sent = 0;
    for (uint64_t now = 0; now < 10000000;) {
        for (int from = 0; from < 2; from++) {
            uint8_t room[SRM_DATAGRAM_MAX], sealed[SRM_SEALED_MAX];
            size_t length;
            if (srm_agent_tick(pair->members[from], now, NULL) != SRM_OK)
                return NULL;
            while (srm_agent_next_datagram(pair->members[from], room, sizeof room, &length) == SRM_OK) {
                if (srm_guard_seal(pair->guards[from], !from, room, length, sealed, sizeof sealed, &length) != SRM_OK)
                    return NULL;
                if (sent++ % 4 && (srm_guard_open(pair->guards[!from], sealed, length, &length) != SRM_OK || srm_agent_hear(pair->members[!from], sealed, length, now, NULL) != SRM_OK))
                    return NULL;
            }
        }
        uint64_t a = srm_agent_next_due(pair->members[0]), b = srm_agent_next_due(pair->members[1]);
        now = a < b ? a : b;
    }
    srm_message message;
    while (srm_agent_give(pair->members[1], 0, &message) == SRM_OK)
        pair->given += message.kind == SRM_MESSAGE_DRAW;
    srm_agent_free(pair->members[0]);
    srm_agent_free(pair->members[1]);
    srm_guard_free(pair->guards[0]);
    srm_guard_free(pair->guards[1]);
    return pair;
}

static void in_threads(void *(*work)(void *), struct pair *pairs)
{
    pthread_t threads[THREADS];
    void *answer;
    for (int i = 0; i < THREADS; i++)
        WANT(pthread_create(&threads[i], NULL, work, &pairs[i]), 0);
    for (int i = 0; i < THREADS; i++) {
        WANT(pthread_join(threads[i], &answer), 0);
        WANT(answer == &pairs[i], 1);
    }
}

int main(void)
{
    static struct pair pairs[THREADS];
    in_threads(begin, pairs);
    in_threads(end, pairs);
    for (int i = 0; i < THREADS; i++)
        WANT(pairs[i].given, STROKES);
    return failures != 0;
}
