/* A session of two members with the Nth allocation refused, for each N: the call that meets it returns SRM_ERROR_MEMORY and changes nothing, so
 * made again it goes on, and at the end the same was sent and given as undisturbed; nothing is leaked. One refusal no call tells of: a list
 * that is collected asks for all its room at first, and where that is refused grows by its elements. Linked with --wrap for each of malloc,
 * calloc, realloc and free. */
#include "check.h"
#include "room_text.h"

/* How many allocations go well before one is refused (below 0: none is), and how many blocks are held. */
static long before_refusal = -1, held;

void *__real_malloc(size_t);
void *__real_calloc(size_t, size_t);
void *__real_realloc(void *, size_t);
void __real_free(void *);

static int refuses(void) { return before_refusal >= 0 && before_refusal-- == 0; }

void *__wrap_malloc(size_t size)
{
    void *at = refuses() ? NULL : __real_malloc(size);
    held += at != NULL;
    return at;
}

void *__wrap_calloc(size_t count, size_t size)
{
    void *at = refuses() ? NULL : __real_calloc(count, size);
    held += at != NULL;
    return at;
}

void *__wrap_realloc(void *old, size_t size)
{
    void *at = refuses() ? NULL : __real_realloc(old, size);
    held += !old && at;
    return at;
}

void __wrap_free(void *at)
{
    held -= at != NULL;
    __real_free(at);
}

/* How often each call ran out of memory. Showing and giving take none, so they never are. */
enum { NEW, DRAW, HEAR, TICK, READ, ROOM_GUARD, GUARD, SHOW, GIVE, CALLS };
static const char *const names[CALLS] = {"new", "draw", "hear", "tick", "read", "room's guard", "guard", "show", "give"};
static long refusals[CALLS];
static uint64_t told;

static void tell(const void *bytes, size_t length)
{
    for (size_t i = 0; i < length; i++)
        told = told * 31 + ((const unsigned char *)bytes)[i];
}

/* What a call returns that is made until memory isn't refused. */
#define AGAIN(of, code, call)                       \
    do {                                            \
        while ((code = (call)) == SRM_ERROR_MEMORY) \
            refusals[of]++;                         \
    } while (0)

static void must(int code, const char *what)
{
    if (code != SRM_OK) {
        printf("memory: %s: %s\n", what, srm_strerror(code));
        exit(1);
    }
}

static void give_all(srm_agent *agent)
{
    srm_message message;
    int code;
    for (unsigned slot = 0; slot < SRM_SLOTS; slot++) {
        for (;;) {
            AGAIN(GIVE, code, srm_agent_give(agent, slot, &message));
            if (code != SRM_OK)
                break;
            tell(&message.kind, 1);
            tell(&message.name.number, sizeof message.name.number);
            tell(message.body, message.length);
        }
        if (code != SRM_NOTHING)
            must(code, "give");
    }
}

/* Two members draw, lose, ask, repair and leave; what they send and give is told. */
static void play(void)
{
    srm_agent *members[2];
    int code, lost = 0;
    for (uint8_t me = 0; me < 2; me++) {
        srm_config config = config_of(me, 2);
        AGAIN(NEW, code, srm_agent_new(&members[me], &config, me, 0));
        must(code, "join");
    }
    for (int stroke = 0; stroke < 6; stroke++) {
        char body[40];
        int length = snprintf(body, sizeof body, "stroke %d of a longer text", stroke);
        AGAIN(DRAW, code, srm_agent_draw(members[stroke % 2], (srm_page){0, (uint16_t)(stroke / 4)}, body, (size_t)length, 0, NULL));
        must(code, "draw");
    }
    AGAIN(SHOW, code, srm_agent_show(members[1], (srm_page){1, 0}, 0));
    must(code, "show");
    uint64_t now = 0;
    while (now < 4000000) {
        for (int from = 0; from < 2; from++) {
            uint8_t room[SRM_DATAGRAM_MAX];
            size_t length;
            AGAIN(TICK, code, srm_agent_tick(members[from], now, NULL));
            must(code, "tick");
            while (srm_agent_next_datagram(members[from], room, sizeof room, &length) == SRM_OK) {
                tell(room, length);
                if (lost++ % 3 == 1)
                    continue;
                AGAIN(HEAR, code, srm_agent_hear(members[!from], room, length, now, NULL));
                must(code, "hear");
            }
            give_all(members[from]);
        }
        if (now >= 3000000 && srm_agent_state(members[0]) == SRM_ACTIVE)
            must(srm_agent_leave(members[0], now), "leave");
        uint64_t a = srm_agent_next_due(members[0]), b = srm_agent_next_due(members[1]);
        now = a < b ? a : b;
    }
    give_all(members[0]);
    give_all(members[1]);
    srm_agent_free(members[0]);
    srm_agent_free(members[1]);
}

/* A room is read, and refused; and its guards, by the room and by the key, seal and open. */
static void join(void)
{
    srm_room *room;
    srm_room_fault fault;
    srm_guard *from, *to;
    uint8_t sealed[27];
    size_t length;
    int code;
    AGAIN(READ, code, srm_room_read(&room, HEAD ADA, sizeof(HEAD ADA) - 1, &fault));
    if (code != SRM_ERROR_FAULT)
        must(code ? code : SRM_ERROR_FAULT, "refuse");
    tell(fault.text, fault.length);
    AGAIN(READ, code, srm_room_read(&room, OUR_ROOM, sizeof OUR_ROOM - 1, &fault));
    must(code, "read");
    AGAIN(ROOM_GUARD, code, srm_room_guard(&from, room, 0, 1));
    must(code, "room's guard");
    srm_room_free(room);
    AGAIN(GUARD, code, srm_guard_new(&to, our_key, sizeof our_key, 1, 1));
    must(code, "guard");
    must(srm_guard_seal(from, 1, "hi", 2, sealed, sizeof sealed, &length), "seal");
    must(srm_guard_open(to, sealed, length, &length), "open");
    tell(sealed, sizeof sealed);
    srm_guard_free(from);
    srm_guard_free(to);
}

static void play_all(void)
{
    join();
    play();
}

int main(void)
{
    long before = held;
    play_all();
    uint64_t wanted = told;
    WANT(held, before);
    long count = 0;
    for (;; count++) {
        told = 0;
        before_refusal = count;
        play_all();
        if (told != wanted || held != before)
            printf("memory: with allocation %ld refused: %s, %ld blocks left\n", count, told == wanted ? "the same" : "something else", held - before), failures++;
        if (before_refusal >= 0)
            break;
    }
    printf("%ld allocations refused in turn; made again:", count);
    for (int of = 0; of < CALLS; of++) {
        printf(" %s %ld", names[of], refusals[of]);
        failures += (refusals[of] == 0) != (of >= SHOW);
    }
    printf("\n");
    return failures != 0;
}
