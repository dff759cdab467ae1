/* The calls of srm.h over those that crates/srm_ffi exports, whose references may not be null. It has no state. */
#include "srm.h"

#include <stdlib.h>
#include <string.h>

/* As the handles of crates/srm_seat and crates/srm_join, and crates/srm_ffi/src/shapes.rt lay them out. All zeroes is an empty handle. */
typedef struct srm_handle {
    void *at;
    bool is_full;
} srm_handle;

typedef struct srm_raw_message {
    uint64_t stamp;
    size_t length;
    srm_name name;
    uint8_t kind;
} srm_raw_message;

typedef struct srm_raw_room_fault {
    size_t line;
    size_t length;
    uint8_t kind;
} srm_raw_room_fault;

struct srm_agent {
    srm_handle handle;
};

struct srm_room {
    srm_handle handle;
};

struct srm_guard {
    srm_handle handle;
};

/* A slice is passed as a pointer, never null, and a length; the allocator as nothing. */
void srm_raw_defaults(srm_config *);
uint32_t srm_raw_open(srm_handle *, const srm_config *, uint64_t, uint64_t);
void srm_raw_close(srm_handle *);
uint32_t srm_raw_draw(srm_handle *, uint8_t, uint16_t, const uint8_t *, size_t, uint64_t, srm_name *);
uint32_t srm_raw_show(srm_handle *, uint8_t, uint16_t, uint64_t);
uint32_t srm_raw_leave(srm_handle *, uint64_t);
uint32_t srm_raw_hear(srm_handle *, const uint8_t *, size_t, uint64_t, srm_heard *);
uint32_t srm_raw_tick(srm_handle *, uint64_t, srm_ticked *);
uint32_t srm_raw_request(srm_handle *, srm_name *);
uint32_t srm_raw_repair(srm_handle *, srm_name *);
uint32_t srm_raw_datagram(srm_handle *, uint8_t *, size_t, size_t *);
uint32_t srm_raw_give(srm_handle *, uint8_t, uint8_t *, size_t, srm_raw_message *);
uint64_t srm_raw_next_due(srm_handle *);
uint8_t srm_raw_state(srm_handle *);
uint32_t srm_raw_new_page(srm_handle *, srm_page *);
uint32_t srm_raw_distance(srm_handle *, uint8_t, uint64_t *);
bool srm_raw_admits(srm_handle *, size_t, uint64_t);
uint64_t srm_raw_admits_from(srm_handle *, size_t);
uint32_t srm_raw_known(srm_handle *, uint8_t, uint16_t, uint8_t, uint32_t *);
uint32_t srm_raw_missing(srm_handle *, uint8_t, uint16_t, uint8_t, uint32_t *);
uint32_t srm_raw_next_missing(srm_handle *, uint8_t, uint16_t, uint8_t, uint32_t, uint32_t *);
uint32_t srm_raw_outstanding(srm_handle *, srm_outstanding *);
uint32_t srm_raw_room_read(srm_handle *, const uint8_t *, size_t, uint8_t *, size_t, srm_raw_room_fault *);
void srm_raw_room_close(srm_handle *);
uint32_t srm_raw_room_members(srm_handle *);
uint32_t srm_raw_room_linger(srm_handle *);
uint32_t srm_raw_room_most_missing(srm_handle *);
uint32_t srm_raw_room_find(srm_handle *, const uint8_t *, size_t, uint32_t *);
uint32_t srm_raw_room_name(srm_handle *, uint32_t, uint8_t *, size_t, size_t *);
uint32_t srm_raw_room_address(srm_handle *, uint32_t, uint8_t *, size_t, size_t *);
uint32_t srm_raw_room_config(srm_handle *, uint8_t, srm_config *);
uint32_t srm_raw_room_guard(srm_handle *, srm_handle *, uint8_t, uint64_t);
uint32_t srm_raw_guard_new(srm_handle *, const uint8_t *, size_t, uint8_t, uint64_t);
void srm_raw_guard_close(srm_handle *);
uint32_t srm_raw_guard_seal(srm_handle *, uint8_t, const uint8_t *, size_t, uint8_t *, size_t, size_t *);
uint32_t srm_raw_guard_open(srm_handle *, const uint8_t *, size_t, size_t *);

/* What an empty slice points to. */
static uint8_t nowhere;

_Static_assert(sizeof(size_t) == 8, "Rattle's usize has 64 bits");
_Static_assert(sizeof(srm_handle) == 2 * sizeof(void *), "a handle");
_Static_assert(sizeof(srm_page) == 4 && sizeof(srm_name) == 12, "names");
_Static_assert(offsetof(srm_config, least_distance) == SRM_CONFIG_SIZE_MIN && sizeof(srm_config) == 32, "settings");
_Static_assert(sizeof(srm_heard) == 16 && sizeof(srm_ticked) == 32 && sizeof(srm_outstanding) == 48, "answers");
_Static_assert(sizeof(srm_raw_room_fault) == 24 && offsetof(srm_room_fault, kind) == offsetof(srm_raw_room_fault, kind), "a fault");
_Static_assert(sizeof(unsigned) == 4, "places");
_Static_assert(sizeof(srm_raw_message) == 32 && offsetof(srm_message, kind) == offsetof(srm_raw_message, kind), "a message");

int srm_version(void) { return SRM_VERSION; }

#define TEXT(number) #number
#define VERSION(major, minor, patch) TEXT(major) "." TEXT(minor) "." TEXT(patch)

const char *srm_version_string(void) { return VERSION(SRM_VERSION_MAJOR, SRM_VERSION_MINOR, SRM_VERSION_PATCH); }

const char *srm_strerror(int code)
{
    switch (code) {
    case SRM_OK: return "done";
    case SRM_ERROR_LEAVING: return "the member is leaving";
    case SRM_ERROR_GONE: return "the member has left";
    case SRM_ERROR_PAGE_LIMIT: return "the table has no slot for another page";
    case SRM_ERROR_STREAM_FULL: return "the stream is full";
    case SRM_ERROR_BODY_LONG: return "the body is too long";
    case SRM_ERROR_MEMORY: return "out of memory";
    case SRM_ERROR_NULL: return "a pointer is NULL";
    case SRM_ERROR_MOMENT: return "a moment is past 2^48 microseconds";
    case SRM_ERROR_SLOT: return "a slot is past 7";
    case SRM_ERROR_CONFIG: return "a setting is out of its range";
    case SRM_ERROR_BUFFER: return "the buffer is too short";
    case SRM_ERROR_EMPTY: return "there is no agent, room or guard";
    case SRM_ERROR_PAGE: return "there is no such page";
    case SRM_NOTHING: return "there is nothing more";
    case SRM_ERROR_FULL: return "there is an agent, room or guard already";
    case SRM_ERROR_LENGTH: return "a length is past PTRDIFF_MAX";
    case SRM_ERROR_MEMBER: return "there is no such member";
    case SRM_ERROR_FAULT: return "the text is no room";
    case SRM_ERROR_KEY: return "a key has 16 to 1024 bytes";
    case SRM_ERROR_UNTAGGED: return "nobody with the key sealed the bytes for this member";
    case SRM_ERROR_OLDER: return "an older version tagged the bytes";
    case SRM_ERROR_AGAIN: return "the bytes came before";
    case SRM_ERROR_COUNTERS: return "all counters to the member were used";
    default: return "an unknown code";
    }
}

void srm_config_init(srm_config *config, size_t size)
{
    if (!config || size < SRM_CONFIG_SIZE_MIN)
        return;
    srm_config full = {.members = 1};
    srm_raw_defaults(&full);
    /* A header that is newer than the library has fields of which this knows nothing. */
    size_t known = size < sizeof full ? SRM_CONFIG_SIZE_MIN : sizeof full;
    full.size = (uint32_t)known;
    memset(config, 0, size);
    memcpy(config, &full, known);
}

/* The settings with defaults for the fields that the caller's header doesn't have. False where the size is no version's. */
static bool read_config(srm_config *full, const srm_config *config)
{
    if (config->size != SRM_CONFIG_SIZE_MIN && config->size != sizeof *full)
        return false;
    srm_config_init(full, sizeof *full);
    memcpy(full, config, config->size);
    return true;
}

int srm_agent_new(srm_agent **agent, const srm_config *config, uint64_t seed, uint64_t now)
{
    srm_config full;
    if (!agent)
        return SRM_ERROR_NULL;
    *agent = NULL;
    if (!config)
        return SRM_ERROR_NULL;
    if (!read_config(&full, config))
        return SRM_ERROR_CONFIG;
    srm_agent *made = calloc(1, sizeof *made);
    if (!made)
        return SRM_ERROR_MEMORY;
    int code = (int)srm_raw_open(&made->handle, &full, seed, now);
    if (code == SRM_OK)
        *agent = made;
    else
        free(made);
    return code;
}

void srm_agent_free(srm_agent *agent)
{
    if (!agent)
        return;
    srm_raw_close(&agent->handle);
    free(agent);
}

int srm_agent_draw(srm_agent *agent, srm_page page, const void *body, size_t length, uint64_t now, srm_name *name)
{
    srm_name unread = {0};
    if (!agent || (!body && length))
        return SRM_ERROR_NULL;
    if (length > PTRDIFF_MAX)
        return SRM_ERROR_LENGTH;
    if (length > SRM_BODY_MAX)
        length = SRM_BODY_MAX + 1; /* still too long, and no more is copied */
    return (int)srm_raw_draw(&agent->handle, page.creator, page.number, body ? body : &nowhere, length, now, name ? name : &unread);
}

bool srm_agent_admits(srm_agent *agent, size_t length, uint64_t now)
{
    return agent && srm_raw_admits(&agent->handle, length, now);
}

uint64_t srm_agent_admits_from(srm_agent *agent, size_t length)
{
    return agent ? srm_raw_admits_from(&agent->handle, length) : SRM_NEVER;
}

int srm_agent_new_page(srm_agent *agent, srm_page *page)
{
    return agent && page ? (int)srm_raw_new_page(&agent->handle, page) : SRM_ERROR_NULL;
}

int srm_agent_show(srm_agent *agent, srm_page page, uint64_t now)
{
    return agent ? (int)srm_raw_show(&agent->handle, page.creator, page.number, now) : SRM_ERROR_NULL;
}

int srm_agent_leave(srm_agent *agent, uint64_t now)
{
    return agent ? (int)srm_raw_leave(&agent->handle, now) : SRM_ERROR_NULL;
}

int srm_agent_hear(srm_agent *agent, const void *bytes, size_t length, uint64_t now, srm_heard *heard)
{
    srm_heard unread = {0};
    if (!agent || (!bytes && length))
        return SRM_ERROR_NULL;
    if (length > PTRDIFF_MAX)
        return SRM_ERROR_LENGTH;
    return (int)srm_raw_hear(&agent->handle, bytes ? bytes : &nowhere, length, now, heard ? heard : &unread);
}

int srm_agent_tick(srm_agent *agent, uint64_t now, srm_ticked *ticked)
{
    srm_ticked unread = {0};
    return agent ? (int)srm_raw_tick(&agent->handle, now, ticked ? ticked : &unread) : SRM_ERROR_NULL;
}

int srm_agent_next_datagram(srm_agent *agent, void *buffer, size_t size, size_t *length)
{
    if (!agent || !length || (!buffer && size))
        return SRM_ERROR_NULL;
    /* No datagram is longer, and a slice may not be past PTRDIFF_MAX. */
    if (size > SRM_DATAGRAM_MAX)
        size = SRM_DATAGRAM_MAX;
    return (int)srm_raw_datagram(&agent->handle, buffer ? buffer : &nowhere, size, length);
}

int srm_agent_next_request(srm_agent *agent, srm_name *name)
{
    return agent && name ? (int)srm_raw_request(&agent->handle, name) : SRM_ERROR_NULL;
}

int srm_agent_next_repair(srm_agent *agent, srm_name *name)
{
    return agent && name ? (int)srm_raw_repair(&agent->handle, name) : SRM_ERROR_NULL;
}

uint64_t srm_agent_next_due(srm_agent *agent) { return agent ? srm_raw_next_due(&agent->handle) : SRM_NEVER; }

int srm_agent_state(srm_agent *agent) { return agent ? srm_raw_state(&agent->handle) : 0; }

int srm_agent_distance(srm_agent *agent, unsigned member, uint64_t *distance)
{
    if (!agent || !distance)
        return SRM_ERROR_NULL;
    if (member >= SRM_MEMBERS_MAX)
        return SRM_ERROR_MEMBER;
    return (int)srm_raw_distance(&agent->handle, (uint8_t)member, distance);
}

/* A member as a byte: one that does not fit is still past the last. */
static uint8_t member_of(unsigned number) { return number < SRM_MEMBERS_MAX ? (uint8_t)number : SRM_MEMBERS_MAX; }

int srm_agent_known(srm_agent *agent, srm_page page, unsigned source, uint32_t *known)
{
    return agent && known ? (int)srm_raw_known(&agent->handle, page.creator, page.number, member_of(source), known) : SRM_ERROR_NULL;
}

int srm_agent_missing(srm_agent *agent, srm_page page, unsigned source, uint32_t *count)
{
    return agent && count ? (int)srm_raw_missing(&agent->handle, page.creator, page.number, member_of(source), count) : SRM_ERROR_NULL;
}

int srm_agent_next_missing(srm_agent *agent, srm_page page, unsigned source, uint32_t after, uint32_t *number)
{
    return agent && number ? (int)srm_raw_next_missing(&agent->handle, page.creator, page.number, member_of(source), after, number) : SRM_ERROR_NULL;
}

int srm_agent_outstanding(srm_agent *agent, srm_outstanding *outstanding)
{
    return agent && outstanding ? (int)srm_raw_outstanding(&agent->handle, outstanding) : SRM_ERROR_NULL;
}

int srm_agent_give(srm_agent *agent, unsigned slot, srm_message *message)
{
    srm_raw_message raw = {0};
    if (!agent || !message)
        return SRM_ERROR_NULL;
    if (slot >= SRM_SLOTS)
        return SRM_ERROR_SLOT;
    int code = (int)srm_raw_give(&agent->handle, (uint8_t)slot, message->body, sizeof message->body, &raw);
    if (code == SRM_OK) {
        message->stamp = raw.stamp;
        message->length = raw.length;
        message->name = raw.name;
        message->kind = raw.kind;
    }
    return code;
}

int srm_room_read(srm_room **room, const void *text, size_t length, srm_room_fault *fault)
{
    srm_raw_room_fault raw = {0};
    char words[SRM_FAULT_TEXT_MAX - 1];
    if (!room)
        return SRM_ERROR_NULL;
    *room = NULL;
    if (!text && length)
        return SRM_ERROR_NULL;
    if (length > SRM_ROOM_TEXT_MAX)
        length = SRM_ROOM_TEXT_MAX + 1; /* still too long, and not read */
    srm_room *made = calloc(1, sizeof *made);
    if (!made)
        return SRM_ERROR_MEMORY;
    int code = (int)srm_raw_room_read(&made->handle, text ? text : &nowhere, length, (uint8_t *)words, sizeof words, &raw);
    if (code == SRM_OK)
        *room = made;
    else
        free(made);
    if (code == SRM_ERROR_FAULT && fault) {
        fault->line = raw.line;
        fault->length = raw.length;
        fault->kind = raw.kind;
        memcpy(fault->text, words, raw.length);
        fault->text[raw.length] = 0;
    }
    return code;
}

void srm_room_free(srm_room *room)
{
    if (!room)
        return;
    srm_raw_room_close(&room->handle);
    free(room);
}

unsigned srm_room_members(srm_room *room) { return room ? srm_raw_room_members(&room->handle) : 0; }

uint32_t srm_room_linger(srm_room *room) { return room ? srm_raw_room_linger(&room->handle) : 0; }

uint32_t srm_room_most_missing(srm_room *room) { return room ? srm_raw_room_most_missing(&room->handle) : 0; }

int srm_room_find(srm_room *room, const char *who, unsigned *place)
{
    return room && who && place ? (int)srm_raw_room_find(&room->handle, (const uint8_t *)who, strlen(who), place) : SRM_ERROR_NULL;
}

/* Copies a text of a member to a buffer, with a 0 behind it. */
static int copy_text(uint32_t (*copy)(srm_handle *, uint32_t, uint8_t *, size_t, size_t *), srm_room *room, unsigned place, char *buffer, size_t size, size_t *length)
{
    if (!room || !length || (!buffer && size))
        return SRM_ERROR_NULL;
    size_t fits = size < PTRDIFF_MAX ? size : PTRDIFF_MAX;
    int code = (int)copy(&room->handle, place, buffer ? (uint8_t *)buffer : &nowhere, fits ? fits - 1 : 0, length);
    if (code == SRM_OK)
        buffer[*length] = 0; /* no name and no address is empty, so there is a buffer */
    return code;
}

int srm_room_name(srm_room *room, unsigned place, char *buffer, size_t size, size_t *length)
{
    return copy_text(srm_raw_room_name, room, place, buffer, size, length);
}

int srm_room_address(srm_room *room, unsigned place, char *buffer, size_t size, size_t *length)
{
    return copy_text(srm_raw_room_address, room, place, buffer, size, length);
}

int srm_room_config(srm_room *room, unsigned me, srm_config *config)
{
    if (!room || !config)
        return SRM_ERROR_NULL;
    if (config->size != sizeof *config)
        return SRM_ERROR_CONFIG;
    return (int)srm_raw_room_config(&room->handle, member_of(me), config);
}

int srm_guard_new(srm_guard **guard, const void *key, size_t length, unsigned me, uint64_t start)
{
    if (!guard)
        return SRM_ERROR_NULL;
    *guard = NULL;
    if (!key && length)
        return SRM_ERROR_NULL;
    if (length > SRM_KEY_MAX)
        length = SRM_KEY_MAX + 1; /* still too long, and not read */
    srm_guard *made = calloc(1, sizeof *made);
    if (!made)
        return SRM_ERROR_MEMORY;
    int code = (int)srm_raw_guard_new(&made->handle, key ? key : &nowhere, length, member_of(me), start);
    if (code == SRM_OK)
        *guard = made;
    else
        free(made);
    return code;
}

int srm_room_guard(srm_guard **guard, srm_room *room, unsigned me, uint64_t start)
{
    if (!guard)
        return SRM_ERROR_NULL;
    *guard = NULL;
    if (!room)
        return SRM_ERROR_NULL;
    srm_guard *made = calloc(1, sizeof *made);
    if (!made)
        return SRM_ERROR_MEMORY;
    int code = (int)srm_raw_room_guard(&room->handle, &made->handle, member_of(me), start);
    if (code == SRM_OK)
        *guard = made;
    else
        free(made);
    return code;
}

void srm_guard_free(srm_guard *guard)
{
    if (!guard)
        return;
    srm_raw_guard_close(&guard->handle);
    free(guard);
}

int srm_guard_seal(srm_guard *guard, unsigned to, const void *datagram, size_t length, void *buffer, size_t size, size_t *sealed)
{
    if (!guard || !sealed || (!datagram && length) || (!buffer && size))
        return SRM_ERROR_NULL;
    if (length > PTRDIFF_MAX)
        return SRM_ERROR_LENGTH;
    if (size > PTRDIFF_MAX)
        size = PTRDIFF_MAX;
    return (int)srm_raw_guard_seal(&guard->handle, member_of(to), datagram ? datagram : &nowhere, length, buffer ? buffer : &nowhere, size, sealed);
}

int srm_guard_open(srm_guard *guard, const void *bytes, size_t length, size_t *opened)
{
    if (!guard || !opened || (!bytes && length))
        return SRM_ERROR_NULL;
    if (length > PTRDIFF_MAX)
        return SRM_ERROR_LENGTH;
    return (int)srm_raw_guard_open(&guard->handle, bytes ? bytes : &nowhere, length, opened);
}
