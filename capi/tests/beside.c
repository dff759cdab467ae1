/* Random calls of four members, each call beside the Rattle agent's: what libsrm told of each is what the agent tells that is called from Rattle, by
 * `srm_calls` of crates/srm_bench. Linked with both archives. `beside CALLS SEED`. */
#include "check.h"

enum { MEMBERS = 4, KEPT = 256 };

/* As crates/srm_bench/src/caller.rt reads calls, and teller.rt tells what they answer. */
size_t srm_calls(uint8_t me, uint8_t members, uint32_t rate, uint32_t depth, uint32_t count, const uint8_t *calls, size_t calls_length, uint64_t *told,
                 size_t told_length);
enum kind { HEAR, TICK, GIVE, DRAW, LEAVE, DUE };

/* A list of numbers, or of bytes, that grows. */
struct list {
    void *at;
    size_t count, room;
};

static void *push(struct list *list, size_t size, size_t more)
{
    if (list->count + more > list->room) {
        list->room = 2 * (list->count + more);
        list->at = realloc(list->at, list->room * size);
        if (!list->at)
            abort();
    }
    list->count += more;
    return (char *)list->at + (list->count - more) * size;
}

/* A member, the calls that were made of it, and what each told. UNTOLD stands for what C isn't told. */
struct member {
    srm_agent *agent;
    struct list calls, told;
    uint32_t count;
    uint64_t last;
};
#define UNTOLD UINT64_C(0xdeadbeefdeadbeef)

static uint64_t word;
static uint8_t kept[KEPT][SRM_DATAGRAM_MAX];
static size_t lengths[KEPT];

static uint64_t below(uint64_t limit) { return next_word(&word) % limit; }

static void tell(struct member *m, uint64_t number) { memcpy(push(&m->told, sizeof number, 1), &number, sizeof number); }

static void note(struct member *m, enum kind kind, uint8_t slot, uint64_t now, const void *bytes, size_t length)
{
    uint64_t after = now - m->last;
    uint8_t *call = push(&m->calls, 1, 8 + length);
    const uint8_t head[8] = {(uint8_t)kind, slot, (uint8_t)(length >> 8), (uint8_t)length, (uint8_t)(after >> 24), (uint8_t)(after >> 16), (uint8_t)(after >> 8), (uint8_t)after};
    memcpy(call, head, sizeof head);
    if (length)
        memcpy(call + 8, bytes, length);
    m->count++;
    m->last = now;
}

static uint64_t of_name(srm_name name)
{
    return (uint64_t)name.source << 56 | (uint64_t)name.page.creator << 48 | (uint64_t)name.page.number << 32 | name.number;
}

static void tell_bytes(struct member *m, const uint8_t *bytes, size_t length)
{
    uint64_t digest = 1;
    for (size_t i = 0; i < length; i++)
        digest = digest * 31 + bytes[i];
    tell(m, length);
    tell(m, digest);
}

static void tell_names(struct member *m, int (*next)(srm_agent *, srm_name *))
{
    uint64_t digest = 1, count = 0;
    srm_name name;
    while (next(m->agent, &name) == SRM_OK) {
        digest = digest * 31 + of_name(name);
        count++;
    }
    tell(m, count);
    tell(m, digest);
}

static void hear(struct member *m, uint64_t now)
{
    uint8_t bytes[SRM_DATAGRAM_MAX];
    uint64_t place = below(KEPT);
    size_t length = lengths[place];
    memcpy(bytes, kept[place], length);
    /* Its head or its last byte is spoiled. A spoiled number would make thousands of strokes missing: hostile.c does that. */
    if (length && below(8) == 0)
        bytes[below(2) ? below(9) : length - 1] ^= (uint8_t)(1 << below(8));
    srm_heard heard;
    note(m, HEAR, 0, now, bytes, length);
    WANT(srm_agent_hear(m->agent, bytes, length, now, &heard), SRM_OK);
    tell(m, heard.cause + 256 * (uint64_t)heard.fault);
    tell(m, heard.timers);
    tell(m, UNTOLD);
}

static void tick(struct member *m, uint64_t now)
{
    srm_ticked ticked;
    note(m, TICK, 0, now, NULL, 0);
    WANT(srm_agent_tick(m->agent, now, &ticked), SRM_OK);
    tell_names(m, srm_agent_next_request);
    tell_names(m, srm_agent_next_repair);
    tell(m, UNTOLD);
    tell(m, UNTOLD);
    tell(m, ticked.datagrams);
    for (size_t i = 0; i < ticked.datagrams; i++) {
        uint64_t place = below(KEPT);
        size_t length;
        /* A room that is too short first: nothing is lost by it. The shortest datagram has 17 bytes. */
        WANT(srm_agent_next_datagram(m->agent, kept[place], below(17), &length), SRM_ERROR_BUFFER);
        WANT(srm_agent_next_datagram(m->agent, kept[place], length, &lengths[place]), SRM_OK);
        WANT(lengths[place], length);
        tell(m, UNTOLD);
        tell_bytes(m, kept[place], length);
    }
}

static void give(struct member *m, uint64_t now)
{
    srm_message message;
    unsigned slot = below(4) ? 0 : (unsigned)below(SRM_SLOTS);
    note(m, GIVE, (uint8_t)slot, now, NULL, 0);
    int code = srm_agent_give(m->agent, slot, &message);
    WANT(code == SRM_OK || code == SRM_NOTHING, 1);
    if (code == SRM_NOTHING) {
        tell(m, 0);
        return;
    }
    tell(m, message.kind);
    if (message.kind == SRM_MESSAGE_OPEN) {
        tell(m, (uint64_t)message.name.page.creator << 48 | (uint64_t)message.name.page.number << 32);
    } else if (message.kind == SRM_MESSAGE_DRAW) {
        tell(m, of_name(message.name));
        tell(m, message.stamp);
        tell_bytes(m, message.body, message.length);
    } else if (message.kind == SRM_MESSAGE_LEFT) {
        tell(m, message.name.source);
    }
}

static void draw(struct member *m, uint64_t now)
{
    srm_name name;
    uint8_t body[SRM_BODY_MAX + 60];
    size_t length = below(40) ? below(200) : below(sizeof body);
    for (size_t i = 0; i < length; i++)
        body[i] = (uint8_t)next_word(&word);
    note(m, DRAW, 0, now, body, length);
    int code = srm_agent_draw(m->agent, SRM_FIRST_PAGE, body, length, now, &name);
    tell(m, code == SRM_OK ? of_name(name) : 0);
}

static void call(struct member *m, uint64_t now, long n, long calls)
{
    switch (below(16)) {
    case 0:
    case 1:
        draw(m, now);
        break;
    case 2:
    case 3:
    case 4:
        tick(m, now);
        break;
    case 5:
    case 6:
    case 7:
        give(m, now);
        break;
    case 8:
        note(m, DUE, 0, now, NULL, 0);
        tell(m, srm_agent_next_due(m->agent));
        break;
    case 9:
        if (n > calls - calls / 50) {
            note(m, LEAVE, 0, now, NULL, 0);
            tell(m, srm_agent_leave(m->agent, now) == SRM_OK);
            break;
        }
        hear(m, now);
        break;
    default:
        hear(m, now);
    }
}

/* How many of the numbers told are other than those of the Rattle agent. */
static void compare(struct member *m, uint8_t me)
{
    uint64_t *told = calloc(m->told.count + 1, sizeof *told);
    const uint64_t *wanted = m->told.at;
    size_t count = srm_calls(me, MEMBERS, SRM_RATE_MAX, SRM_DEPTH_MAX, m->count, m->calls.at, m->calls.count, told, m->told.count + 1);
    WANT(count, m->told.count);
    for (size_t i = 0; i < count && i < m->told.count && failures < 10; i++)
        if (wanted[i] != UNTOLD)
            WANT(wanted[i], told[i]);
    free(told);
}

int main(int argc, char **argv)
{
    long calls = argc > 1 ? atol(argv[1]) : 1000000, made = 0;
    word = argc > 2 ? strtoull(argv[2], NULL, 10) : 1;
    struct member members[MEMBERS] = {0};
    for (uint8_t me = 0; me < MEMBERS; me++) {
        srm_config config = config_of(me, MEMBERS);
        config.rate = SRM_RATE_MAX;
        config.depth = SRM_DEPTH_MAX;
        WANT(srm_agent_new(&members[me].agent, &config, 1, 0), SRM_OK);
    }
    uint64_t now = 0;
    for (long n = 0; n < calls; n++) {
        now += below(2000);
        call(&members[below(MEMBERS)], now, n, calls);
    }
    for (uint8_t me = 0; me < MEMBERS; me++) {
        compare(&members[me], me);
        made += members[me].count;
        srm_agent_free(members[me].agent);
        free(members[me].calls.at);
        free(members[me].told.at);
    }
    printf("%ld calls beside the Rattle agent\n", made);
    return failures != 0;
}
