/* Random calls of each function by a careless caller: pointers that are NULL, moments, lengths, slots, members and pages out of range, buffers that are too
 * short. Each member has a twin that makes only those calls that its member was not refused. Both answer alike and are due at the same moments, so a
 * refused call changed nothing; and what it would have written stays. `careless CALLS SEED`. */
#include "check.h"

enum { MEMBERS = 3, KEPT = 32, FUNCTIONS = 15 };
enum function { DRAW, SHOW, LEAVE, HEAR, TICK, DATAGRAM, REQUEST, REPAIR, NEW_PAGE, DISTANCE, KNOWN, MISSING, NEXT_MISSING, OUTSTANDING, GIVE };

/* What a call is passed. */
struct given {
    enum function function;
    const void *bytes;
    size_t length;
    uint64_t now;
    srm_page page;
    unsigned number; /* a slot or a member */
    bool has_agent, has_out;
};

/* What a call writes. */
struct out {
    uint8_t room[SRM_DATAGRAM_MAX];
    size_t length;
    srm_name name;
    srm_page page;
    srm_heard heard;
    srm_ticked ticked;
    uint64_t distance;
    uint32_t count;
    srm_outstanding outstanding;
    srm_message message;
};

static uint64_t word;
static uint8_t kept[KEPT][SRM_DATAGRAM_MAX];
static size_t lengths[KEPT];
static struct out out, twins_out, filled;

static uint64_t below(uint64_t limit) { return next_word(&word) % limit; }

static int call(srm_agent *agent, const struct given *g, struct out *to)
{
    size_t length = g->length;
    switch (g->function) {
    case DRAW: return srm_agent_draw(agent, g->page, g->bytes, length, g->now, g->has_out ? &to->name : NULL);
    case SHOW: return srm_agent_show(agent, g->page, g->now);
    case LEAVE: return srm_agent_leave(agent, g->now);
    case HEAR: return srm_agent_hear(agent, g->bytes, length, g->now, g->has_out ? &to->heard : NULL);
    case TICK: return srm_agent_tick(agent, g->now, g->has_out ? &to->ticked : NULL);
    case DATAGRAM: return srm_agent_next_datagram(agent, g->bytes ? to->room : NULL, length, g->has_out ? &to->length : NULL);
    case REQUEST: return srm_agent_next_request(agent, g->has_out ? &to->name : NULL);
    case REPAIR: return srm_agent_next_repair(agent, g->has_out ? &to->name : NULL);
    case NEW_PAGE: return srm_agent_new_page(agent, g->has_out ? &to->page : NULL);
    case DISTANCE: return srm_agent_distance(agent, g->number, g->has_out ? &to->distance : NULL);
    case KNOWN: return srm_agent_known(agent, g->page, g->number, g->has_out ? &to->count : NULL);
    case MISSING: return srm_agent_missing(agent, g->page, g->number, g->has_out ? &to->count : NULL);
    case NEXT_MISSING: return srm_agent_next_missing(agent, g->page, g->number, (uint32_t)length, g->has_out ? &to->count : NULL);
    case OUTSTANDING: return srm_agent_outstanding(agent, g->has_out ? &to->outstanding : NULL);
    default: return srm_agent_give(agent, g->number, g->has_out ? &to->message : NULL);
    }
}

/* The code with which the interface refuses a call, by the lists of srm.h; SRM_OK where it does not. */
static int refusal(const struct given *g)
{
    bool has_bytes = g->function == DRAW || g->function == HEAR || g->function == DATAGRAM;
    bool may_lack_out = g->function <= TICK;
    if (!g->has_agent || (has_bytes && !g->bytes && g->length) || (!may_lack_out && !g->has_out))
        return SRM_ERROR_NULL;
    if ((g->function == DRAW || g->function == HEAR) && g->length > PTRDIFF_MAX)
        return SRM_ERROR_LENGTH;
    if (g->function <= TICK && g->now > SRM_MOMENT_MAX)
        return SRM_ERROR_MOMENT;
    bool has_stream = g->function == KNOWN || g->function == MISSING || g->function == NEXT_MISSING;
    if ((g->function <= SHOW || has_stream) && g->page.creator >= SRM_MEMBERS_MAX)
        return SRM_ERROR_PAGE;
    if ((g->function == DISTANCE || has_stream) && g->number >= SRM_MEMBERS_MAX)
        return SRM_ERROR_MEMBER;
    if (g->function == GIVE && g->number >= SRM_SLOTS)
        return SRM_ERROR_SLOT;
    return SRM_OK;
}

static struct given given(uint64_t now, bool leaves)
{
    static const unsigned numbers[] = {7, 8, 31, 32, 255, 256, UINT32_MAX};
    uint64_t place = below(KEPT);
    struct given g = {.function = (enum function)below(FUNCTIONS), .now = now, .page = {(uint8_t)below(2), (uint16_t)below(3)}, .number = (unsigned)below(2)};
    if (g.function == LEAVE && !leaves)
        g.function = HEAR;
    g.bytes = kept[place];
    g.length = g.function == DRAW ? below(SRM_BODY_MAX + 20) : g.function == DATAGRAM ? below(2000) : lengths[place];
    g.has_agent = below(50) > 0;
    g.has_out = below(20) > 0;
    switch (below(24)) {
    case 0: g.now = SRM_MOMENT_MAX + 1 + below(UINT64_MAX - SRM_MOMENT_MAX); break;
    case 1: g.now = 0; break;
    case 2: g.bytes = NULL; break;
    case 3: g.bytes = NULL, g.length = 0; break;
    case 4: g.length = (size_t)PTRDIFF_MAX + 1 + below(PTRDIFF_MAX); break;
    case 5: g.page = (srm_page){(uint8_t)next_word(&word), (uint16_t)next_word(&word)}; break;
    case 6: g.number = numbers[below(sizeof numbers / sizeof *numbers)]; break;
    default: break;
    }
    return g;
}

/* What both wrote is the same. */
static bool alike(const struct out *a, const struct out *b)
{
    const srm_message *m = &a->message, *n = &b->message;
    return a->length == b->length && memcmp(a->room, b->room, sizeof a->room) == 0 && a->name.page.creator == b->name.page.creator &&
           a->name.page.number == b->name.page.number && a->name.source == b->name.source && a->name.number == b->name.number &&
           a->page.creator == b->page.creator && a->page.number == b->page.number && a->heard.timers == b->heard.timers &&
           a->heard.cause == b->heard.cause && a->heard.fault == b->heard.fault && a->ticked.requests == b->ticked.requests &&
           a->ticked.repairs == b->ticked.repairs && a->ticked.datagrams == b->ticked.datagrams && a->ticked.state == b->ticked.state &&
           a->distance == b->distance && a->count == b->count && a->outstanding.next_request_at == b->outstanding.next_request_at &&
           a->outstanding.next_repair_at == b->outstanding.next_repair_at && a->outstanding.waiting_shown == b->outstanding.waiting_shown &&
           a->outstanding.waiting_new == b->outstanding.waiting_new && a->outstanding.waiting_other == b->outstanding.waiting_other &&
           a->outstanding.missing == b->outstanding.missing && a->outstanding.state == b->outstanding.state && m->kind == n->kind && m->stamp == n->stamp && m->length == n->length &&
           m->name.page.creator == n->name.page.creator && m->name.page.number == n->name.page.number && m->name.source == n->name.source && m->name.number == n->name.number && memcmp(m->body, n->body, sizeof m->body) == 0;
}

static void make(srm_agent *agent, srm_agent *twin, const struct given *g)
{
    int wanted = refusal(g);
    out = twins_out = filled;
    int code = call(g->has_agent ? agent : NULL, g, &out);
    if (wanted != SRM_OK)
        WANT(code, wanted);
    else
        WANT(code == SRM_OK || code == SRM_NOTHING || code == SRM_ERROR_BUFFER || code == SRM_ERROR_PAGE || code <= SRM_ERROR_BODY_LONG, 1);
    if (code == SRM_ERROR_BUFFER) {
        WANT(g->function == DATAGRAM && out.length > g->length, 1);
        out.length = filled.length;
    }
    if (code != SRM_OK) {
        WANT(memcmp(&out, &filled, sizeof out), 0);
    } else {
        WANT(call(twin, g, &twins_out), SRM_OK);
        WANT(alike(&out, &twins_out), 1);
    }
    WANT(srm_agent_next_due(agent) == srm_agent_next_due(twin), 1);
    WANT(srm_agent_admits_from(agent, 100) == srm_agent_admits_from(twin, 100), 1);
    WANT(srm_agent_state(agent), srm_agent_state(twin));
    if (g->function == DATAGRAM && code == SRM_OK) {
        uint64_t place = below(KEPT);
        memcpy(kept[place], out.room, sizeof out.room);
        lengths[place] = out.length;
    }
}

int main(int argc, char **argv)
{
    long calls = argc > 1 ? atol(argv[1]) : 100000;
    word = argc > 2 ? strtoull(argv[2], NULL, 10) : 1;
    srm_agent *members[MEMBERS], *twins[MEMBERS];
    memset(&filled, 0xa5, sizeof filled);
    for (uint8_t me = 0; me < MEMBERS; me++) {
        srm_config config = config_of(me, MEMBERS);
        config.rate = SRM_RATE_MAX;
        config.depth = SRM_DEPTH_MAX;
        WANT(srm_agent_new(&members[me], &config, me, 0), SRM_OK);
        WANT(srm_agent_new(&twins[me], &config, me, 0), SRM_OK);
    }
    uint64_t now = 0;
    for (long n = 0; n < calls && failures < 20; n++) {
        uint64_t me = below(MEMBERS);
        now += below(3000);
        struct given g = given(now, n > calls - calls / 20);
        make(members[me], twins[me], &g);
    }
    for (int me = 0; me < MEMBERS; me++) {
        srm_agent_free(members[me]);
        srm_agent_free(twins[me]);
    }
    return failures != 0;
}
