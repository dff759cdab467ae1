/* Random calls of guards by a careless caller, with bytes whole, changed, cut, again, for others, and any: what opens was sealed for this member, and opens once. A twin of each
 * guard makes only the calls that its guard was not refused, and seals the same bytes. And a room's text, changed: it is refused with one of twelve faults, or is a room.
 * `guards CALLS SEED`. */
#include "check.h"
#include "room_text.h"

enum { MEMBERS = 3, KEPT = 64, LONGEST = 60 };

static uint64_t word;
static uint64_t below(uint64_t limit) { return next_word(&word) % limit; }

/* Datagrams that were sealed: by whom, for whom, and whether they opened. */
static struct kept {
    uint8_t bytes[LONGEST + SRM_SEAL_BYTES];
    size_t length;
    uint64_t from, to;
    bool has_opened;
} kept[KEPT];

static bool is_filled(const uint8_t *bytes, size_t size)
{
    while (size && bytes[size - 1] == 0xa5)
        size--;
    return size == 0;
}

static void seal(srm_guard *guard, srm_guard *twin, uint64_t from)
{
    struct kept one = {.length = below(LONGEST), .from = from, .to = below(MEMBERS)}, same = one;
    uint8_t datagram[LONGEST];
    size_t length = one.length, size = below(4) ? sizeof one.bytes : below(sizeof one.bytes), sealed = 77;
    unsigned to = below(20) ? (unsigned)one.to : 32 + (unsigned)below(300);
    bool has_bytes = below(30) > 0, has_buffer = below(30) > 0, has_length = below(30) > 0, is_long = below(40) == 0;
    for (size_t i = 0; i < sizeof datagram; i++)
        datagram[i] = (uint8_t)next_word(&word);
    memset(one.bytes, 0xa5, sizeof one.bytes);
    int wanted = !has_length || (!has_bytes && length) || (!has_buffer && size) ? SRM_ERROR_NULL
                 : is_long                                                     ? SRM_ERROR_LENGTH
                 : to >= SRM_MEMBERS_MAX                                       ? SRM_ERROR_MEMBER
                 : size < length + SRM_SEAL_BYTES                              ? SRM_ERROR_BUFFER
                                                                               : SRM_OK;
    if (!has_bytes && is_long)
        return; /* a length of bytes that are not there */
    int code = srm_guard_seal(guard, to, has_bytes ? datagram : NULL, is_long ? SIZE_MAX - below(99) : length, has_buffer ? one.bytes : NULL, size, has_length ? &sealed : NULL);
    WANT(code, wanted);
    WANT(sealed, code == SRM_OK || code == SRM_ERROR_BUFFER ? length + SRM_SEAL_BYTES : 77);
    if (code != SRM_OK) {
        WANT(is_filled(one.bytes, sizeof one.bytes), 1);
        return;
    }
    WANT(is_filled(one.bytes + sealed, sizeof one.bytes - sealed), 1);
    WANT(memcmp(one.bytes, datagram, length), 0);
    WANT(srm_guard_seal(twin, to, datagram, length, same.bytes, sizeof same.bytes, &sealed), SRM_OK);
    WANT(memcmp(one.bytes, same.bytes, sealed), 0);
    one.length = sealed;
    kept[below(KEPT)] = one;
}

/* Bytes in a block of their own length, so that a sanitizer sees a read past its end. */
static int open_exact(srm_guard *guard, const uint8_t *bytes, size_t length, size_t *opened)
{
    uint8_t *exact = malloc(length ? length : 1);
    memcpy(exact, bytes, length);
    int code = srm_guard_open(guard, exact, length, opened);
    free(exact);
    return code;
}

static void open(srm_guard *guard, uint64_t me)
{
    struct kept *one = &kept[below(KEPT)];
    uint8_t bytes[sizeof one->bytes];
    size_t length = one->length, opened = 77;
    bool is_whole = below(3) > 0;
    memcpy(bytes, one->bytes, sizeof bytes);
    if (!is_whole) {
        switch (below(3)) {
        case 0: length = length ? below(length) : 0; break;
        case 1:
            for (size_t i = 0; i < length; i++)
                bytes[i] = (uint8_t)next_word(&word);
            break;
        default:
            if (length)
                bytes[below(length)] ^= (uint8_t)(1 + below(255));
        }
    }
    int code = open_exact(guard, bytes, length, &opened);
    if (!is_whole || !one->length || one->to != me) {
        WANT(code, SRM_ERROR_UNTAGGED);
    } else {
        WANT(code, one->has_opened ? SRM_ERROR_AGAIN : SRM_OK);
        one->has_opened = true;
    }
    WANT(opened, code == SRM_OK ? length - SRM_SEAL_BYTES : 77);
}

/* A text with some bytes changed, left out or doubled. */
static void read_changed(void)
{
    char text[2 * sizeof OUR_ROOM];
    size_t length = sizeof OUR_ROOM - 1;
    memcpy(text, OUR_ROOM, length);
    for (uint64_t i = below(3) + 1; i; i--) {
        size_t at = below(length);
        switch (below(3)) {
        case 0: text[at] = (char)next_word(&word); break;
        case 1: memmove(text + at, text + at + 1, --length - at); break;
        default: memmove(text + at + 1, text + at, length++ - at);
        }
    }
    srm_room *room;
    srm_room_fault fault;
    int code = srm_room_read(&room, text, length, &fault);
    if (code == SRM_ERROR_FAULT) {
        WANT(fault.kind >= SRM_FAULT_NO_TEXT && fault.kind <= SRM_FAULT_UNKNOWN, 1);
        WANT(fault.length > 0 && fault.length < sizeof fault.text && fault.length == strlen(fault.text), 1);
        WANT(strchr(fault.text, '\n') == NULL, 1);
        return;
    }
    WANT(code, SRM_OK);
    unsigned count = srm_room_members(room), place;
    WANT(count >= 1 && count <= SRM_MEMBERS_MAX, 1);
    for (unsigned member = 0; member < count; member++) {
        char name[SRM_NAME_MAX + 1];
        size_t bytes;
        WANT(srm_room_name(room, member, name, sizeof name, &bytes), SRM_OK);
        WANT(srm_room_find(room, name, &place), SRM_OK);
        WANT(place, member); /* names are distinct */
    }
    srm_room_free(room);
}

int main(int argc, char **argv)
{
    long calls = argc > 1 ? atol(argv[1]) : 100000;
    word = argc > 2 ? strtoull(argv[2], NULL, 10) : 1;
    srm_guard *guards[MEMBERS], *twins[MEMBERS];
    for (unsigned me = 0; me < MEMBERS; me++) {
        WANT(srm_guard_new(&guards[me], our_key, sizeof our_key, me, 1), SRM_OK);
        WANT(srm_guard_new(&twins[me], our_key, sizeof our_key, me, 1), SRM_OK);
    }
    for (long n = 0; n < calls && failures < 20; n++) {
        uint64_t me = below(MEMBERS);
        if (n % 16 == 0)
            read_changed();
        else if (below(2))
            seal(guards[me], twins[me], me);
        else
            open(guards[me], me);
    }
    for (int me = 0; me < MEMBERS; me++) {
        srm_guard_free(guards[me]);
        srm_guard_free(twins[me]);
    }
    return failures != 0;
}
