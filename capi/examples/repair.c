/* Two members of one session in one program. One draws three strokes, of which the second is lost on its way; the other asks for it, is
 * repaired, and gets all three in order. The program is the network too: a program of your own sends to all others.
 *
 *     cc repair.c $(pkg-config --cflags --libs srm) -o repair */
#include <inttypes.h>
#include <stdio.h>
#include <stdlib.h>
#include <string.h>

#include <srm.h>

enum { MEMBERS = 2, SESSION = 7, LOST = 1, NONE = -1 };

/* The last moment, in microseconds: by then what was lost is repaired. */
static const uint64_t END = 900000;

static void check(int code, const char *what)
{
    if (code != SRM_OK) {
        fprintf(stderr, "repair: %s: %s\n", what, srm_strerror(code));
        exit(1);
    }
}

/* The member's number is the seed of its waits too. */
static srm_agent *join(uint8_t me)
{
    srm_config config;
    srm_config_default(&config);
    config.me = me;
    config.members = MEMBERS;
    config.session = SESSION;
    srm_agent *agent;
    check(srm_agent_new(&agent, &config, me, 0), "join");
    return agent;
}

/* One member hears what a tick of the other left to be sent, but for one datagram that is lost. */
static void carry(srm_agent *from, srm_agent *to, int lost, uint64_t now)
{
    uint8_t room[SRM_DATAGRAM_MAX];
    size_t length;
    for (int place = 0; srm_agent_next_datagram(from, room, sizeof room, &length) == SRM_OK; place++)
        if (place != lost)
            check(srm_agent_hear(to, room, length, now, NULL), "hear");
}

static void tick(srm_agent *from, srm_agent *to, uint64_t now)
{
    srm_name name;
    check(srm_agent_tick(from, now, NULL), "tick");
    while (srm_agent_next_request(from, &name) == SRM_OK)
        printf("%" PRIu64 ": asked for stroke %" PRIu32 "\n", now, name.number);
    while (srm_agent_next_repair(from, &name) == SRM_OK)
        printf("%" PRIu64 ": repaired stroke %" PRIu32 "\n", now, name.number);
    carry(from, to, NONE, now);
}

static void print(const srm_message *message)
{
    switch (message->kind) {
    case SRM_MESSAGE_OPEN:
        printf("given page %u of member %u\n", message->name.page.number, message->name.page.creator);
        break;
    case SRM_MESSAGE_DRAW:
        printf("given stroke %" PRIu32 " of member %u: %.*s\n", message->name.number, message->name.source, (int)message->length,
               (const char *)message->body);
        break;
    case SRM_MESSAGE_LEFT:
        printf("given that member %u left\n", message->name.source);
        break;
    default:
        printf("given the close\n");
    }
}

int main(int argc, char **argv)
{
    static const char *const strokes[] = {"a line", "a circle", "an arrow"};
    if (argc > 1) {
        fprintf(stderr, "repair: %s: it takes no argument\nusage: repair\n", argv[1]);
        return 2;
    }
    srm_agent *drawer = join(0), *listener = join(1);
    for (size_t i = 0; i < sizeof strokes / sizeof *strokes; i++)
        check(srm_agent_draw(drawer, SRM_FIRST_PAGE, strokes[i], strlen(strokes[i]), 0, NULL), "draw");
    check(srm_agent_tick(drawer, 0, NULL), "tick");
    carry(drawer, listener, LOST, 0);
    for (;;) {
        uint64_t a = srm_agent_next_due(drawer), b = srm_agent_next_due(listener), now = a < b ? a : b;
        if (now > END)
            break;
        tick(drawer, listener, now);
        tick(listener, drawer, now);
    }
    srm_message message;
    while (srm_agent_give(listener, 0, &message) == SRM_OK)
        print(&message);
    srm_agent_free(drawer);
    srm_agent_free(listener);
    return 0;
}
