/* Datagrams of a session of four, whole, changed, cut and joined, and any bytes, through hear: a cause is one of the seven, noise has one of eleven
 * faults, what is ignored sets no timer, and what is given of each source has the numbers from 1 on. `hostile CALLS SEED`. */
#include "check.h"

enum { MEMBERS = 4, KEPT = 64 };

static uint64_t word;
static uint8_t kept[KEPT][SRM_DATAGRAM_MAX];
static size_t lengths[KEPT];
static uint32_t given[MEMBERS][SRM_SLOTS][SRM_MEMBERS_MAX];

static uint64_t below(uint64_t limit) { return next_word(&word) % limit; }

static size_t spoil(uint8_t *bytes, size_t length)
{
    switch (below(5)) {
    case 0:
        for (uint64_t i = below(3) + 1; length && i; i--)
            bytes[below(length)] = (uint8_t)next_word(&word);
        return length;
    case 1:
        return length ? below(length) : 0;
    case 2:
        length = below(200);
        for (size_t i = 0; i < length; i++)
            bytes[i] = (uint8_t)next_word(&word);
        return length;
    case 3: {
        size_t more = lengths[below(KEPT)];
        if (length + more > SRM_DATAGRAM_MAX)
            return length;
        memcpy(bytes + length, kept[0], more);
        return length + more;
    }
    default:
        return length;
    }
}

static void hear(srm_agent *agent, uint64_t now)
{
    uint8_t bytes[SRM_DATAGRAM_MAX];
    uint64_t place = below(KEPT);
    srm_heard heard;
    memcpy(bytes, kept[place], lengths[place]);
    size_t length = spoil(bytes, lengths[place]);
    /* In a block of its own length, so that a sanitizer sees a read past its end. */
    uint8_t *exact = malloc(length ? length : 1);
    memcpy(exact, bytes, length);
    WANT(srm_agent_hear(agent, exact, length, now, &heard), SRM_OK);
    free(exact);
    WANT(heard.cause <= SRM_CAUSE_STRANGER, 1);
    WANT(heard.cause == SRM_CAUSE_DECODE ? heard.fault >= 1 && heard.fault <= 11 : heard.fault == 0, 1);
    WANT(heard.cause != SRM_TAKEN && heard.timers > 0, 0);
}

static void give(srm_agent *agent, int me)
{
    srm_message message;
    unsigned slot = (unsigned)below(SRM_SLOTS);
    int code = srm_agent_give(agent, slot, &message);
    WANT(code == SRM_OK || code == SRM_NOTHING, 1);
    if (code == SRM_OK && message.kind == SRM_MESSAGE_DRAW) {
        WANT(message.name.number, ++given[me][slot][message.name.source]);
        WANT(message.length <= SRM_BODY_MAX, 1);
    }
}

int main(int argc, char **argv)
{
    long calls = argc > 1 ? atol(argv[1]) : 100000;
    word = argc > 2 ? strtoull(argv[2], NULL, 10) : 1;
    srm_agent *members[MEMBERS];
    for (uint8_t me = 0; me < MEMBERS; me++) {
        srm_config config = config_of(me, MEMBERS);
        config.rate = SRM_RATE_MAX;
        config.depth = SRM_DEPTH_MAX;
        WANT(srm_agent_new(&members[me], &config, me, 0), SRM_OK);
    }
    uint64_t now = 0;
    for (long n = 0; n < calls; n++) {
        int me = (int)below(MEMBERS);
        srm_agent *agent = members[me];
        now += below(3000);
        switch (below(8)) {
        case 0: {
            srm_page page = {(uint8_t)below(MEMBERS), (uint16_t)below(3)};
            int code = srm_agent_draw(agent, page, kept[0], below(300), now, NULL);
            WANT(code == SRM_OK || code == SRM_ERROR_PAGE_LIMIT || code == SRM_ERROR_STREAM_FULL, 1);
            break;
        }
        case 1: {
            uint64_t place = below(KEPT);
            WANT(srm_agent_tick(agent, now, NULL), SRM_OK);
            while (srm_agent_next_datagram(agent, kept[place], SRM_DATAGRAM_MAX, &lengths[place]) == SRM_OK)
                place = below(KEPT);
            break;
        }
        case 2:
        case 3:
            give(agent, me);
            break;
        default:
            hear(agent, now);
        }
    }
    for (int me = 0; me < MEMBERS; me++)
        srm_agent_free(members[me]);
    return failures != 0;
}
