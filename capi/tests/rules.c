/* Each call with each code that it can return, and that a refusal changes nothing. */
#include "check.h"

static srm_agent *agent_of(uint8_t me, uint8_t members)
{
    srm_config config = config_of(me, members);
    srm_agent *agent = NULL;
    WANT(srm_agent_new(&agent, &config, me, 0), SRM_OK);
    return agent;
}

/* What a refused call would have written stays. */
static int is_filled(const void *at, size_t size)
{
    const unsigned char *bytes = at;
    for (size_t i = 0; i < size; i++)
        if (bytes[i] != 0xa5)
            return 0;
    return 1;
}
#define FILL(it) memset(&(it), 0xa5, sizeof(it))
#define STAYS(it) WANT(is_filled(&(it), sizeof(it)), 1)

static void defaults(void)
{
    srm_config c;
    srm_config_init(NULL, sizeof c);
    FILL(c);
    srm_config_init(&c, SRM_CONFIG_SIZE_MIN - 1);
    STAYS(c);
    srm_config_default(&c);
    WANT(c.size, sizeof c);
    WANT(c.session, 0);
    WANT(c.rate, 8000);
    WANT(c.depth, 4204);
    WANT(c.me, 0);
    WANT(c.members, 1);
    WANT(c.c1, 2);
    WANT(c.c2, 2);
    WANT(c.d1, 1);
    WANT(c.d2, 1);
    WANT(c.least_distance, 1);
    WANT(srm_version(), SRM_VERSION);
    WANT(strcmp(srm_version_string(), "0.1.0"), 0);
}

/* An older header's settings are shorter, a newer one's longer. */
static void other_versions(void)
{
    struct {
        srm_config config;
        uint64_t later;
    } newer;
    uint64_t distance = 0;
    srm_agent *agent;
    FILL(newer);
    srm_config_init(&newer.config, SRM_CONFIG_SIZE_MIN);
    WANT(newer.config.size, SRM_CONFIG_SIZE_MIN);
    WANT(newer.config.least_distance, 0xa5a5a5a5a5a5a5a5);
    newer.config.members = 2;
    WANT(srm_agent_new(&agent, &newer.config, 0, 0), SRM_OK);
    WANT(srm_agent_distance(agent, 1, &distance), SRM_OK);
    WANT(distance, 100000);
    srm_agent_free(agent);
    /* In a block that ends where the older struct does, so that a sanitizer sees what lies past it. */
    uint8_t *older = malloc(SRM_CONFIG_SIZE_MIN);
    srm_config_init((srm_config *)(void *)older, SRM_CONFIG_SIZE_MIN);
    older[offsetof(srm_config, members)] = 2;
    WANT(srm_agent_new(&agent, (srm_config *)(void *)older, 0, 0), SRM_OK);
    srm_agent_free(agent);
    free(older);
    FILL(newer);
    srm_config_init(&newer.config, sizeof newer);
    WANT(newer.config.size, sizeof newer.config);
    WANT(newer.later, 0);
    WANT(srm_agent_new(&agent, &newer.config, 0, 0), SRM_OK);
    srm_agent_free(agent);
    for (uint32_t size = 0; size < 3 * sizeof(srm_config); size++) {
        newer.config.size = size;
        if (size == SRM_CONFIG_SIZE_MIN || size == sizeof(srm_config))
            continue;
        WANT(srm_agent_new(&agent, &newer.config, 0, 0), SRM_ERROR_CONFIG);
        WANT(agent == NULL, 1);
    }
}

#define BAD(field, value)                                         \
    do {                                                          \
        srm_config bad_ = config_of(0, 2);                        \
        bad_.field = (value);                                     \
        agent = (srm_agent *)&bad_;                               \
        WANT(srm_agent_new(&agent, &bad_, 0, 0), SRM_ERROR_CONFIG); \
        WANT(agent == NULL, 1);                                   \
    } while (0)

#define GOOD(field, value)                                \
    do {                                                  \
        srm_config good_ = config_of(0, 2);               \
        good_.field = (value);                            \
        WANT(srm_agent_new(&agent, &good_, 0, 0), SRM_OK); \
        srm_agent_free(agent);                            \
    } while (0)

/* Each setting at the ends of its range, and just past them. */
static void settings(void)
{
    srm_agent *agent;
    srm_config c = config_of(0, 2);
    WANT(srm_agent_new(NULL, &c, 0, 0), SRM_ERROR_NULL);
    WANT(srm_agent_new(&agent, NULL, 0, 0), SRM_ERROR_NULL);
    WANT(agent == NULL, 1);
    WANT(srm_agent_new(&agent, &c, 0, SRM_MOMENT_MAX + 1), SRM_ERROR_MOMENT);
    WANT(agent == NULL, 1);
    WANT(srm_agent_new(&agent, &c, 0, UINT64_MAX), SRM_ERROR_MOMENT);
    BAD(me, 2);
    BAD(me, 32);
    BAD(me, 255);
    BAD(members, 0);
    BAD(members, SRM_MEMBERS_MAX + 1);
    BAD(members, 255);
    GOOD(members, SRM_MEMBERS_MAX);
    BAD(rate, SRM_RATE_MIN - 1);
    GOOD(rate, SRM_RATE_MIN);
    GOOD(rate, SRM_RATE_MAX);
    BAD(rate, SRM_RATE_MAX + 1);
    BAD(rate, UINT32_MAX);
    BAD(depth, SRM_DEPTH_MIN - 1);
    GOOD(depth, SRM_DEPTH_MIN);
    GOOD(depth, SRM_DEPTH_MAX);
    BAD(depth, SRM_DEPTH_MAX + 1);
    GOOD(c1, SRM_WAIT_MAX);
    BAD(c1, SRM_WAIT_MAX + 1);
    GOOD(c2, SRM_WAIT_MAX);
    BAD(c2, SRM_WAIT_MAX + 1);
    GOOD(d1, SRM_WAIT_MAX);
    BAD(d1, SRM_WAIT_MAX + 1);
    GOOD(d2, SRM_WAIT_MAX);
    BAD(d2, SRM_WAIT_MAX + 1);
    BAD(least_distance, SRM_DISTANCE_MIN - 1);
    GOOD(least_distance, SRM_DISTANCE_MIN);
    GOOD(least_distance, SRM_DISTANCE_MAX);
    BAD(least_distance, SRM_DISTANCE_MAX + 1);
    BAD(least_distance, UINT64_MAX);
}

/* Without an agent, by a NULL pointer and by memory of zeroes. */
static void nobody(void)
{
    uint64_t zeroes[4] = {0}, distance;
    srm_agent *const none[] = {NULL, (srm_agent *)zeroes};
    uint8_t room[SRM_DATAGRAM_MAX];
    size_t length;
    srm_name name;
    srm_page page;
    srm_heard heard;
    srm_ticked ticked;
    srm_message message;
    srm_outstanding outstanding;
    uint32_t number;
    srm_agent_free(NULL);
    for (int i = 0; i < 2; i++) {
        int code = i ? SRM_ERROR_EMPTY : SRM_ERROR_NULL;
        FILL(room), FILL(length), FILL(name), FILL(page), FILL(heard), FILL(ticked), FILL(message), FILL(distance), FILL(outstanding), FILL(number);
        WANT(srm_agent_draw(none[i], SRM_FIRST_PAGE, "x", 1, 0, &name), code);
        WANT(srm_agent_show(none[i], SRM_FIRST_PAGE, 0), code);
        WANT(srm_agent_leave(none[i], 0), code);
        WANT(srm_agent_hear(none[i], "x", 1, 0, &heard), code);
        WANT(srm_agent_tick(none[i], 0, &ticked), code);
        WANT(srm_agent_next_datagram(none[i], room, sizeof room, &length), code);
        WANT(srm_agent_next_request(none[i], &name), code);
        WANT(srm_agent_next_repair(none[i], &name), code);
        WANT(srm_agent_new_page(none[i], &page), code);
        WANT(srm_agent_distance(none[i], 0, &distance), code);
        WANT(srm_agent_known(none[i], SRM_FIRST_PAGE, 0, &number), code);
        WANT(srm_agent_missing(none[i], SRM_FIRST_PAGE, 0, &number), code);
        WANT(srm_agent_next_missing(none[i], SRM_FIRST_PAGE, 0, 0, &number), code);
        WANT(srm_agent_outstanding(none[i], &outstanding), code);
        WANT(srm_agent_give(none[i], 0, &message), code);
        WANT(srm_agent_next_due(none[i]) == SRM_NEVER, 1);
        WANT(srm_agent_admits_from(none[i], 1) == SRM_NEVER, 1);
        WANT(srm_agent_admits(none[i], 1, 0), 0);
        WANT(srm_agent_state(none[i]), 0);
        STAYS(room);
        STAYS(length);
        STAYS(name);
        STAYS(page);
        STAYS(heard);
        STAYS(ticked);
        STAYS(message);
        STAYS(distance);
        STAYS(outstanding);
        STAYS(number);
    }
    WANT(zeroes[0] | zeroes[1] | zeroes[2] | zeroes[3], 0);
}

/* Rules of the interface that are broken. None of it changes when something is due, nor what is sent. */
static void refusals(void)
{
    static const uint8_t long_body[SRM_BODY_MAX + 1];
    const uint64_t late = SRM_MOMENT_MAX + 1;
    srm_agent *a = agent_of(0, 2);
    uint64_t due = srm_agent_next_due(a), distance;
    uint32_t number;
    srm_name name;
    srm_heard heard;
    srm_ticked ticked;
    srm_message message;
    FILL(name), FILL(heard), FILL(ticked), FILL(message), FILL(distance), FILL(number);
    WANT(srm_agent_draw(a, SRM_FIRST_PAGE, NULL, 1, 0, &name), SRM_ERROR_NULL);
    WANT(srm_agent_draw(a, SRM_FIRST_PAGE, "x", (size_t)PTRDIFF_MAX + 1, 0, &name), SRM_ERROR_LENGTH);
    WANT(srm_agent_draw(a, SRM_FIRST_PAGE, "x", SIZE_MAX, 0, &name), SRM_ERROR_LENGTH);
    WANT(srm_agent_draw(a, SRM_FIRST_PAGE, "x", 1, late, &name), SRM_ERROR_MOMENT);
    WANT(srm_agent_draw(a, (srm_page){32, 0}, "x", 1, 0, &name), SRM_ERROR_PAGE);
    WANT(srm_agent_draw(a, SRM_FIRST_PAGE, long_body, sizeof long_body, 0, &name), SRM_ERROR_BODY_LONG);
    WANT(srm_agent_draw(a, SRM_FIRST_PAGE, long_body, PTRDIFF_MAX, 0, &name), SRM_ERROR_BODY_LONG); /* no more of it is read */
    WANT(srm_agent_show(a, (srm_page){32, 0}, 0), SRM_ERROR_PAGE);
    WANT(srm_agent_show(a, SRM_FIRST_PAGE, late), SRM_ERROR_MOMENT);
    WANT(srm_agent_leave(a, late), SRM_ERROR_MOMENT);
    WANT(srm_agent_hear(a, NULL, 1, 0, &heard), SRM_ERROR_NULL);
    WANT(srm_agent_hear(a, "x", SIZE_MAX, 0, &heard), SRM_ERROR_LENGTH);
    WANT(srm_agent_hear(a, "x", 1, late, &heard), SRM_ERROR_MOMENT);
    WANT(srm_agent_tick(a, late, &ticked), SRM_ERROR_MOMENT);
    WANT(srm_agent_new_page(a, NULL), SRM_ERROR_NULL);
    WANT(srm_agent_distance(a, 1, NULL), SRM_ERROR_NULL);
    WANT(srm_agent_distance(a, 32, &distance), SRM_ERROR_MEMBER);
    WANT(srm_agent_distance(a, 256, &distance), SRM_ERROR_MEMBER);
    WANT(srm_agent_known(a, SRM_FIRST_PAGE, 0, NULL), SRM_ERROR_NULL);
    WANT(srm_agent_known(a, (srm_page){32, 0}, 32, &number), SRM_ERROR_PAGE);
    WANT(srm_agent_known(a, SRM_FIRST_PAGE, 32, &number), SRM_ERROR_MEMBER);
    WANT(srm_agent_known(a, SRM_FIRST_PAGE, 256, &number), SRM_ERROR_MEMBER);
    WANT(srm_agent_missing(a, SRM_FIRST_PAGE, 0, NULL), SRM_ERROR_NULL);
    WANT(srm_agent_missing(a, (srm_page){32, 0}, 32, &number), SRM_ERROR_PAGE);
    WANT(srm_agent_missing(a, SRM_FIRST_PAGE, 32, &number), SRM_ERROR_MEMBER);
    WANT(srm_agent_next_missing(a, SRM_FIRST_PAGE, 0, 0, NULL), SRM_ERROR_NULL);
    WANT(srm_agent_next_missing(a, (srm_page){32, 0}, 32, 0, &number), SRM_ERROR_PAGE);
    WANT(srm_agent_next_missing(a, SRM_FIRST_PAGE, UINT32_MAX, 0, &number), SRM_ERROR_MEMBER);
    WANT(srm_agent_next_missing(a, SRM_FIRST_PAGE, 0, 0, &number), SRM_NOTHING);
    WANT(srm_agent_outstanding(a, NULL), SRM_ERROR_NULL);
    WANT(srm_agent_give(a, 8, &message), SRM_ERROR_SLOT);
    WANT(srm_agent_give(a, 256, &message), SRM_ERROR_SLOT);
    WANT(srm_agent_give(a, 0, NULL), SRM_ERROR_NULL);
    WANT(srm_agent_give(a, 1, &message), SRM_NOTHING);
    WANT(srm_agent_next_request(a, NULL), SRM_ERROR_NULL);
    WANT(srm_agent_next_repair(a, NULL), SRM_ERROR_NULL);
    WANT(srm_agent_next_request(a, &name), SRM_NOTHING);
    WANT(srm_agent_next_repair(a, &name), SRM_NOTHING);
    STAYS(name);
    STAYS(heard);
    STAYS(ticked);
    STAYS(message);
    STAYS(distance);
    STAYS(number);
    WANT(srm_agent_next_due(a), due);
    WANT(srm_agent_state(a), SRM_ACTIVE);
    WANT(srm_agent_tick(a, due, &ticked), SRM_OK);
    WANT(ticked.datagrams, 1); /* its session message, and nothing drawn */
    srm_agent_free(a);
}

/* Pages: the table has eight slots. */
static void pages(void)
{
    srm_agent *a = agent_of(0, 2);
    srm_page page;
    srm_name name;
    WANT(srm_agent_draw(a, SRM_FIRST_PAGE, NULL, 0, 0, NULL), SRM_OK);
    WANT(srm_agent_draw(a, (srm_page){31, 65535}, "x", 1, 0, &name), SRM_OK);
    WANT(name.page.creator, 31);
    WANT(name.page.number, 65535);
    WANT(name.source, 0);
    WANT(name.number, 1);
    WANT(srm_agent_new_page(a, &page), SRM_OK);
    WANT(page.creator, 0);
    WANT(page.number, 1);
    for (uint16_t i = 2; i < SRM_SLOTS; i++)
        WANT(srm_agent_show(a, (srm_page){1, i}, 0), SRM_OK);
    FILL(page), FILL(name);
    WANT(srm_agent_show(a, (srm_page){1, 8}, 0), SRM_ERROR_PAGE_LIMIT);
    WANT(srm_agent_draw(a, (srm_page){1, 8}, "x", 1, 0, &name), SRM_ERROR_PAGE_LIMIT);
    WANT(srm_agent_new_page(a, &page), SRM_ERROR_PAGE);
    STAYS(page);
    STAYS(name);
    WANT(srm_agent_show(a, SRM_FIRST_PAGE, 0), SRM_OK);
    srm_agent_free(a);
}

/* A page has one of 65,536 numbers. */
static void last_page(void)
{
    srm_agent *a = agent_of(0, 2);
    srm_page page;
    WANT(srm_agent_show(a, (srm_page){0, 65534}, 0), SRM_OK);
    WANT(srm_agent_new_page(a, &page), SRM_OK);
    WANT(page.number, 65535);
    WANT(srm_agent_show(a, page, 0), SRM_OK);
    FILL(page);
    WANT(srm_agent_new_page(a, &page), SRM_ERROR_PAGE);
    STAYS(page);
    srm_agent_free(a);
}

/* Where several codes hold, the first of the header's list is returned. */
static void first_codes(void)
{
    static const uint8_t body[SRM_BODY_MAX + 1];
    const srm_page none = {32, 0}, ninth = {1, 8};
    const uint64_t late = SRM_MOMENT_MAX + 1;
    uint64_t zeroes[4] = {0};
    srm_agent *empty = (srm_agent *)zeroes, *a = agent_of(0, 2);
    WANT(srm_agent_draw(NULL, none, body, SIZE_MAX, late, NULL), SRM_ERROR_NULL);
    WANT(srm_agent_draw(empty, none, body, SIZE_MAX, late, NULL), SRM_ERROR_LENGTH);
    WANT(srm_agent_draw(empty, none, body, sizeof body, late, NULL), SRM_ERROR_MOMENT);
    WANT(srm_agent_draw(empty, none, body, sizeof body, 0, NULL), SRM_ERROR_PAGE);
    WANT(srm_agent_draw(empty, ninth, body, sizeof body, 0, NULL), SRM_ERROR_EMPTY);
    WANT(srm_agent_show(NULL, none, late), SRM_ERROR_NULL);
    WANT(srm_agent_show(empty, none, late), SRM_ERROR_MOMENT);
    WANT(srm_agent_show(empty, none, 0), SRM_ERROR_PAGE);
    WANT(srm_agent_show(empty, ninth, 0), SRM_ERROR_EMPTY);
    WANT(srm_agent_leave(NULL, late), SRM_ERROR_NULL);
    WANT(srm_agent_leave(empty, late), SRM_ERROR_MOMENT);
    for (uint16_t i = 1; i < SRM_SLOTS; i++)
        WANT(srm_agent_show(a, (srm_page){1, i}, 0), SRM_OK);
    WANT(srm_agent_draw(a, ninth, body, sizeof body, 0, NULL), SRM_ERROR_BODY_LONG);
    WANT(srm_agent_draw(a, ninth, body, 0, 0, NULL), SRM_ERROR_PAGE_LIMIT);
    WANT(srm_agent_leave(a, 0), SRM_OK);
    WANT(srm_agent_draw(a, ninth, body, sizeof body, 0, NULL), SRM_ERROR_LEAVING);
    WANT(srm_agent_tick(a, 0, NULL), SRM_OK);
    WANT(srm_agent_draw(a, ninth, body, sizeof body, 0, NULL), SRM_ERROR_GONE);
    WANT(srm_agent_show(a, ninth, 0), SRM_ERROR_GONE);
    srm_agent_free(a);
}

/* A stream holds 65,536 strokes. */
static void full_stream(void)
{
    srm_agent *a = agent_of(0, 2);
    srm_name name;
    for (long i = 0; i < SRM_STROKES_MAX; i++)
        if (srm_agent_draw(a, SRM_FIRST_PAGE, NULL, 0, 0, &name) != SRM_OK)
            failures++;
    WANT(name.number, SRM_STROKES_MAX);
    FILL(name);
    WANT(srm_agent_draw(a, SRM_FIRST_PAGE, NULL, 0, 0, &name), SRM_ERROR_STREAM_FULL);
    STAYS(name);
    srm_agent_free(a);
}

/* A buffer that is too short loses nothing: the same datagram comes again. */
static void short_buffers(void)
{
    srm_agent *a = agent_of(0, 2);
    uint8_t body[SRM_BODY_MAX], room[SRM_DATAGRAM_MAX];
    size_t length = 77;
    srm_ticked ticked;
    memset(body, 3, sizeof body);
    WANT(srm_agent_draw(a, SRM_FIRST_PAGE, "", 0, 0, NULL), SRM_OK);
    WANT(srm_agent_draw(a, SRM_FIRST_PAGE, body, sizeof body, 0, NULL), SRM_OK);
    FILL(room);
    WANT(srm_agent_next_datagram(a, room, sizeof room, &length), SRM_NOTHING);
    WANT(length, 77);
    STAYS(room);
    WANT(srm_agent_tick(a, 0, &ticked), SRM_OK);
    WANT(ticked.datagrams, 2);
    WANT(ticked.requests, 0);
    WANT(ticked.repairs, 0);
    WANT(ticked.state, SRM_ACTIVE);
    WANT(srm_agent_next_datagram(a, NULL, 1, &length), SRM_ERROR_NULL);
    WANT(srm_agent_next_datagram(a, room, 1, NULL), SRM_ERROR_NULL);
    for (size_t size = 0; size < 27; size++) {
        length = 0;
        WANT(srm_agent_next_datagram(a, size ? room : NULL, size, &length), SRM_ERROR_BUFFER);
        WANT(length, 27);
    }
    STAYS(room);
    WANT(srm_agent_next_datagram(a, room, 27, &length), SRM_OK);
    WANT(length, 27);
    WANT(room[0] == 'S' && room[1] == 'R', 1);
    WANT(is_filled(room + 27, sizeof room - 27), 1);
    WANT(srm_agent_next_datagram(a, room, 1050, &length), SRM_ERROR_BUFFER);
    WANT(length, 1051);
    WANT(srm_agent_next_datagram(a, room, SIZE_MAX, &length), SRM_OK);
    WANT(length, 1051);
    WANT(memcmp(room + 27, body, sizeof body), 0);
    WANT(srm_agent_next_datagram(a, room, sizeof room, &length), SRM_NOTHING);
    WANT(length, 1051);
    srm_agent_free(a);
}

/* What a tick leaves is dropped by the next that is done, and by none that is refused. */
static void left_by_ticks(void)
{
    srm_agent *a = agent_of(0, 2);
    uint8_t room[SRM_DATAGRAM_MAX];
    size_t length;
    WANT(srm_agent_draw(a, SRM_FIRST_PAGE, "x", 1, 0, NULL), SRM_OK);
    WANT(srm_agent_tick(a, 0, NULL), SRM_OK);
    WANT(srm_agent_tick(a, SRM_MOMENT_MAX + 1, NULL), SRM_ERROR_MOMENT);
    WANT(srm_agent_next_datagram(a, room, sizeof room, &length), SRM_OK);
    WANT(srm_agent_draw(a, SRM_FIRST_PAGE, "x", 1, 0, NULL), SRM_OK);
    WANT(srm_agent_tick(a, 0, NULL), SRM_OK);
    WANT(srm_agent_tick(a, 0, NULL), SRM_OK);
    WANT(srm_agent_next_datagram(a, room, sizeof room, &length), SRM_NOTHING);
    srm_agent_free(a);
}

/* Each cause for which a datagram is ignored, and what is given of those that are taken. */
static void hearing(void)
{
    srm_agent *a = agent_of(0, 2), *b = agent_of(1, 2), *c = agent_of(2, 3), *other = agent_of(0, 2);
    uint8_t room[SRM_DATAGRAM_MAX], again[SRM_DATAGRAM_MAX];
    size_t length, other_length;
    srm_heard heard;
    srm_message message;
    WANT(srm_agent_draw(a, SRM_FIRST_PAGE, "a line", 6, 5, NULL), SRM_OK);
    WANT(srm_agent_tick(a, 5, NULL), SRM_OK);
    WANT(srm_agent_next_datagram(a, room, sizeof room, &length), SRM_OK);
    WANT(srm_agent_hear(b, room, length, 9, &heard), SRM_OK);
    WANT(heard.cause, SRM_TAKEN);
    WANT(heard.fault, 0);
    WANT(heard.timers, 0);
    WANT(srm_agent_hear(a, room, length, 9, &heard), SRM_OK);
    WANT(heard.cause, SRM_CAUSE_OWN);
    WANT(srm_agent_hear(b, room, length - 1, 9, &heard), SRM_OK);
    WANT(heard.cause, SRM_CAUSE_DECODE);
    WANT(heard.fault, 1);
    WANT(srm_agent_hear(b, NULL, 0, 9, &heard), SRM_OK);
    WANT(heard.cause, SRM_CAUSE_DECODE);
    WANT(heard.fault, 1);
    WANT(srm_agent_hear(b, "noise", 5, 9, &heard), SRM_OK);
    WANT(heard.fault, 2);
    room[8] = 2; /* its sender */
    room[9] = 2; /* its source */
    WANT(srm_agent_hear(b, room, length, 9, &heard), SRM_OK);
    WANT(heard.cause, SRM_CAUSE_STRANGER);
    room[8] = room[9] = 0;
    WANT(srm_agent_draw(other, SRM_FIRST_PAGE, "b line", 6, 5, NULL), SRM_OK);
    WANT(srm_agent_tick(other, 5, NULL), SRM_OK);
    WANT(srm_agent_next_datagram(other, again, sizeof again, &other_length), SRM_OK);
    WANT(srm_agent_hear(b, again, other_length, 9, &heard), SRM_OK);
    WANT(heard.cause, SRM_CAUSE_CONFLICT);
    room[9] = 1; /* a repair of a stroke that member 1 never drew, by member 0 */
    room[3] = 3;
    WANT(srm_agent_hear(b, room, length, 9, &heard), SRM_OK);
    WANT(heard.cause, SRM_CAUSE_BEYOND_FINAL);
    WANT(srm_agent_give(b, 0, &message), SRM_OK);
    WANT(message.kind, SRM_MESSAGE_OPEN);
    WANT(message.name.page.creator, 0);
    WANT(message.name.page.number, 0);
    WANT(message.name.source + message.name.number + message.length + message.stamp, 0);
    WANT(srm_agent_give(b, 0, &message), SRM_OK);
    WANT(message.kind, SRM_MESSAGE_DRAW);
    WANT(message.name.source, 0);
    WANT(message.name.number, 1);
    WANT(message.stamp, 5);
    WANT(message.length, 6);
    WANT(memcmp(message.body, "a line", 6), 0);
    FILL(message);
    WANT(srm_agent_give(b, 0, &message), SRM_NOTHING);
    STAYS(message);
    for (uint16_t i = 1; i < SRM_SLOTS; i++)
        WANT(srm_agent_show(c, (srm_page){2, i}, 0), SRM_OK);
    WANT(srm_agent_draw(a, (srm_page){0, 9}, "x", 1, 9, NULL), SRM_OK);
    WANT(srm_agent_tick(a, 9, NULL), SRM_OK);
    WANT(srm_agent_next_datagram(a, room, sizeof room, &length), SRM_OK);
    WANT(srm_agent_hear(c, room, length, 9, &heard), SRM_OK);
    WANT(heard.cause, SRM_CAUSE_PAGE_LIMIT);
    srm_agent_free(a);
    srm_agent_free(b);
    srm_agent_free(c);
    srm_agent_free(other);
}

/* A member that leaves: what it refuses from then on, and what another is given of it. */
static void leaving(void)
{
    srm_agent *a = agent_of(0, 2), *b = agent_of(1, 2);
    uint8_t room[SRM_DATAGRAM_MAX];
    size_t length;
    srm_ticked ticked;
    srm_heard heard;
    srm_name name;
    srm_message message;
    FILL(name);
    WANT(srm_agent_leave(a, 5), SRM_OK);
    WANT(srm_agent_leave(a, 5), SRM_ERROR_LEAVING);
    WANT(srm_agent_state(a), SRM_LEAVING);
    WANT(srm_agent_draw(a, SRM_FIRST_PAGE, "x", 1, 5, &name), SRM_ERROR_LEAVING);
    WANT(srm_agent_tick(a, SRM_MOMENT_MAX, &ticked), SRM_OK);
    WANT(ticked.state, SRM_GONE);
    WANT(ticked.datagrams, 1);
    WANT(srm_agent_state(a), SRM_GONE);
    WANT(srm_agent_next_due(a) == SRM_NEVER, 1);
    WANT(srm_agent_leave(a, 5), SRM_ERROR_GONE);
    WANT(srm_agent_show(a, SRM_FIRST_PAGE, 5), SRM_ERROR_GONE);
    WANT(srm_agent_draw(a, SRM_FIRST_PAGE, "x", 1, 5, &name), SRM_ERROR_GONE);
    STAYS(name);
    WANT(srm_agent_next_datagram(a, room, sizeof room, &length), SRM_OK);
    WANT(srm_agent_hear(a, room, length, 10, &heard), SRM_OK);
    WANT(heard.cause, SRM_CAUSE_GONE);
    WANT(srm_agent_hear(b, room, length, 10, &heard), SRM_OK);
    WANT(heard.cause, SRM_TAKEN);
    WANT(srm_agent_give(b, 0, &message), SRM_OK);
    WANT(message.kind, SRM_MESSAGE_OPEN);
    WANT(srm_agent_give(b, 0, &message), SRM_OK);
    WANT(message.kind, SRM_MESSAGE_LEFT);
    WANT(message.name.source, 0);
    WANT(srm_agent_give(a, 0, &message), SRM_OK);
    WANT(message.kind, SRM_MESSAGE_OPEN);
    for (unsigned slot = 0; slot < SRM_SLOTS; slot++) {
        while (srm_agent_give(a, slot, &message) == SRM_OK && message.kind != SRM_MESSAGE_CLOSE)
            ;
        WANT(message.kind, SRM_MESSAGE_CLOSE);
        WANT(srm_agent_give(a, slot, &message), SRM_NOTHING);
    }
    srm_agent_free(a);
    srm_agent_free(b);
}

static srm_outstanding outstanding_of(srm_agent *agent)
{
    srm_outstanding outstanding;
    FILL(outstanding);
    WANT(srm_agent_outstanding(agent, &outstanding), SRM_OK);
    return outstanding;
}

/* What a member misses of a source on a page: how many, and their numbers. */
static void misses(srm_agent *agent, srm_page page, unsigned source, uint32_t known, uint32_t count, const uint32_t *numbers)
{
    uint32_t told, number = 0;
    WANT(srm_agent_known(agent, page, source, &told), SRM_OK);
    WANT(told, known);
    WANT(srm_agent_missing(agent, page, source, &told), SRM_OK);
    WANT(told, count);
    for (uint32_t i = 0; i < count; i++) {
        WANT(srm_agent_next_missing(agent, page, source, number, &number), SRM_OK);
        WANT(number, numbers[i]);
    }
    WANT(srm_agent_next_missing(agent, page, source, number, &number), SRM_NOTHING);
    WANT(srm_agent_next_missing(agent, page, source, UINT32_MAX, &number), SRM_NOTHING);
}

/* Of four strokes the second and fourth come; the first is repaired. What waits in the bucket, and which timers run. */
static void what_is_outstanding(void)
{
    static const uint32_t numbers[] = {1, 3};
    srm_agent *a = agent_of(0, 2), *b = agent_of(1, 2);
    uint8_t room[SRM_DATAGRAM_MAX];
    size_t length;
    srm_outstanding told = outstanding_of(a);
    WANT(told.missing, 0);
    WANT(told.next_request_at == SRM_NEVER && told.next_repair_at == SRM_NEVER, 1);
    WANT(told.waiting_shown + told.waiting_new + told.waiting_other, 0);
    WANT(told.state, SRM_ACTIVE);
    for (int i = 0; i < 4; i++)
        WANT(srm_agent_draw(a, SRM_FIRST_PAGE, "x", 1, 0, NULL), SRM_OK);
    WANT(outstanding_of(a).waiting_new, 4);
    misses(a, SRM_FIRST_PAGE, 0, 4, 0, NULL);
    WANT(srm_agent_tick(a, 0, NULL), SRM_OK);
    WANT(outstanding_of(a).waiting_new, 0);
    for (int i = 1; i <= 4; i++) {
        WANT(srm_agent_next_datagram(a, room, sizeof room, &length), SRM_OK);
        if (i % 2 == 0)
            WANT(srm_agent_hear(b, room, length, 0, NULL), SRM_OK);
    }
    misses(b, SRM_FIRST_PAGE, 0, 4, 2, numbers);
    misses(b, SRM_FIRST_PAGE, 1, 0, 0, NULL);
    misses(b, (srm_page){31, 65535}, 31, 0, 0, NULL);
    told = outstanding_of(b);
    WANT(told.missing, 2);
    WANT(told.next_request_at, srm_agent_next_due(b));
    WANT(told.next_repair_at == SRM_NEVER, 1);
    WANT(srm_agent_tick(b, 400000, NULL), SRM_OK);
    WANT(srm_agent_next_datagram(b, room, sizeof room, &length), SRM_OK);
    WANT(srm_agent_hear(a, room, length, 400000, NULL), SRM_OK);
    told = outstanding_of(a);
    WANT(told.next_repair_at >= 500000 && told.next_repair_at <= 600000, 1); /* 1 to 2 distances later */
    WANT(told.missing, 0);
    WANT(srm_agent_tick(a, 600000, NULL), SRM_OK);
    WANT(outstanding_of(a).next_repair_at == SRM_NEVER, 1);
    WANT(srm_agent_next_datagram(a, room, sizeof room, &length), SRM_OK);
    WANT(srm_agent_hear(b, room, length, 600000, NULL), SRM_OK);
    misses(b, SRM_FIRST_PAGE, 0, 4, 1, numbers + 1);
    WANT(srm_agent_leave(b, 600000), SRM_OK);
    WANT(outstanding_of(b).state, SRM_LEAVING);
    srm_agent_free(a);
    srm_agent_free(b);
}

/* Names that a tick asks for and repairs, in order, and the distance that the waits go by. */
static void requests(void)
{
    srm_agent *a = agent_of(0, 2), *b = agent_of(1, 2);
    uint8_t room[SRM_DATAGRAM_MAX];
    size_t length;
    uint64_t distance;
    srm_ticked ticked;
    srm_heard heard;
    srm_name name;
    for (int i = 0; i < 3; i++)
        WANT(srm_agent_draw(a, SRM_FIRST_PAGE, "x", 1, 0, NULL), SRM_OK);
    WANT(srm_agent_tick(a, 0, NULL), SRM_OK);
    for (int i = 0; i < 3; i++)
        WANT(srm_agent_next_datagram(a, room, sizeof room, &length), SRM_OK);
    WANT(srm_agent_distance(b, 1, &distance), SRM_OK);
    WANT(distance, 0);
    WANT(srm_agent_distance(b, 0, &distance), SRM_OK);
    WANT(distance, 100000);
    WANT(srm_agent_distance(b, 31, &distance), SRM_OK); /* who is not in the roster, and so was never heard */
    WANT(distance, 100000);
    WANT(srm_agent_hear(b, room, length, 0, &heard), SRM_OK);
    WANT(heard.timers, 2);
    uint64_t due = srm_agent_next_due(b);
    WANT(due >= 200000 && due <= 400000, 1);
    WANT(srm_agent_tick(b, 400000, &ticked), SRM_OK);
    WANT(ticked.requests, 2);
    WANT(ticked.datagrams, 1);
    for (uint32_t number = 1; number <= 2; number++) {
        WANT(srm_agent_next_request(b, &name), SRM_OK);
        WANT(name.number, number);
        WANT(name.source, 0);
        WANT(name.page.creator + name.page.number, 0);
    }
    WANT(srm_agent_next_request(b, &name), SRM_NOTHING);
    WANT(srm_agent_next_datagram(b, room, sizeof room, &length), SRM_OK);
    WANT(srm_agent_hear(a, room, length, 400000, &heard), SRM_OK);
    WANT(heard.timers, 2);
    WANT(srm_agent_tick(a, 600000, &ticked), SRM_OK);
    WANT(ticked.repairs, 2);
    WANT(ticked.datagrams, 2);
    WANT(srm_agent_next_repair(a, &name), SRM_OK);
    WANT(name.number, 1);
    WANT(srm_agent_next_repair(a, &name), SRM_OK);
    WANT(name.number, 2);
    WANT(srm_agent_next_repair(a, &name), SRM_NOTHING);
    srm_agent_free(a);
    srm_agent_free(b);
}

/* From which moment on the rate admits a stroke: at once where nothing waits, else when the bucket covers what waits and the stroke. It has 4,204
 * bytes at first, which four of the longest datagrams take, and 8,000 come a second. */
static void admitting(void)
{
    srm_agent *a = agent_of(0, 2);
    static const uint8_t body[SRM_BODY_MAX];
    WANT(srm_agent_admits(a, SRM_BODY_MAX, 0), 1);
    WANT(srm_agent_admits_from(a, SRM_BODY_MAX), 0);
    for (int i = 0; i < 5; i++)
        WANT(srm_agent_draw(a, SRM_FIRST_PAGE, body, sizeof body, 0, NULL), SRM_OK);
    WANT(srm_agent_admits(a, 1, 0), 0);
    WANT(srm_agent_admits_from(a, 1) == SRM_NEVER, 1);
    WANT(srm_agent_tick(a, 0, NULL), SRM_OK);
    WANT(srm_agent_admits(a, 1, 0), 0);
    WANT(srm_agent_admits_from(a, 13), 136375); /* 1,051 and 40 bytes at 8,000 a second */
    WANT(srm_agent_admits(a, 13, 136374), 0);
    WANT(srm_agent_admits(a, 13, 136375), 1);
    WANT(srm_agent_admits_from(a, SIZE_MAX), srm_agent_admits_from(a, SRM_BODY_MAX));
    srm_agent_free(a);
}

/* Seeds choose the waits: one seed the same, another others. */
static void seeds(void)
{
    uint64_t due[3];
    for (int i = 0; i < 3; i++) {
        srm_agent *a = agent_of(0, 2), *b;
        srm_config config = config_of(1, 2);
        uint8_t room[SRM_DATAGRAM_MAX];
        size_t length;
        WANT(srm_agent_new(&b, &config, i < 2 ? 17 : 18, 0), SRM_OK);
        for (int k = 0; k < 2; k++)
            WANT(srm_agent_draw(a, SRM_FIRST_PAGE, "x", 1, 0, NULL), SRM_OK);
        WANT(srm_agent_tick(a, 0, NULL), SRM_OK);
        for (int k = 0; k < 2; k++)
            WANT(srm_agent_next_datagram(a, room, sizeof room, &length), SRM_OK);
        WANT(srm_agent_hear(b, room, length, 0, NULL), SRM_OK);
        due[i] = srm_agent_next_due(b);
        srm_agent_free(a);
        srm_agent_free(b);
    }
    WANT(due[0] == due[1], 1);
    WANT(due[0] == due[2], 0);
}

static void texts(void)
{
    const char *unknown = srm_strerror(-1);
    for (int code = -3; code < 40; code++) {
        int is_known = (code >= 0 && code <= 6) || (code >= 16 && code <= 32);
        WANT(srm_strerror(code) != NULL, 1);
        WANT(strcmp(srm_strerror(code), unknown) != 0, is_known);
    }
}

int main(void)
{
    defaults();
    other_versions();
    settings();
    nobody();
    refusals();
    pages();
    last_page();
    first_codes();
    full_stream();
    short_buffers();
    left_by_ticks();
    hearing();
    leaving();
    requests();
    what_is_outstanding();
    admitting();
    seeds();
    texts();
    return failures != 0;
}
