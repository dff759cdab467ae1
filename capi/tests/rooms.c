/* Each call of rooms and guards with each code that it can return, and that a refusal changes nothing. */
#include "check.h"
#include "room_text.h"

/* What a refused call would have written stays. */
static int is_filled(const void *at, size_t size)
{
    const unsigned char *bytes = at;
    for (size_t i = 0; i < size; i++)
        if (bytes[i] != 0xa5)
            return 0;
    return 1;
}
#define FILL(it) memset(&(it), 0xa5, sizeof(it))
#define STAYS(it) WANT(is_filled(&(it), sizeof(it)), 1)

static srm_room *our_room(void)
{
    srm_room *room = NULL;
    WANT(srm_room_read(&room, OUR_ROOM, sizeof OUR_ROOM - 1, NULL), SRM_OK);
    return room;
}

static srm_guard *guard_of(unsigned me, uint64_t start)
{
    srm_guard *guard = NULL;
    WANT(srm_guard_new(&guard, our_key, sizeof our_key, me, start), SRM_OK);
    return guard;
}

/* A text that is no room, for this reason. */
static void faulty(const char *text, size_t length, int kind, size_t line, const char *words)
{
    srm_room *room = (srm_room *)&length;
    srm_room_fault fault;
    FILL(fault);
    WANT(srm_room_read(&room, text, length, &fault), SRM_ERROR_FAULT);
    WANT(room == NULL, 1);
    WANT(fault.kind, kind);
    WANT(fault.line, line);
    WANT(fault.length, strlen(fault.text));
    WANT(strncmp(fault.text, words, strlen(words)), 0);
    if (strncmp(fault.text, words, strlen(words)))
        printf("%s\n", fault.text);
    WANT(srm_room_read(&room, text, length, NULL), SRM_ERROR_FAULT);
}
#define FAULTY(text, kind, line, words) faulty(text, sizeof(text) - 1, kind, line, words)

static void reading(void)
{
    static const char long_text[SRM_ROOM_TEXT_MAX + 1] = "#";
    srm_room *room = (srm_room *)&room;
    srm_room_fault fault;
    FILL(fault);
    WANT(srm_room_read(NULL, OUR_ROOM, 1, &fault), SRM_ERROR_NULL);
    WANT(srm_room_read(&room, NULL, 1, &fault), SRM_ERROR_NULL);
    WANT(room == NULL, 1);
    STAYS(fault);
    WANT(srm_room_read(&room, OUR_ROOM, sizeof OUR_ROOM - 1, &fault), SRM_OK);
    STAYS(fault);
    srm_room_free(room);
    srm_room_free(NULL);
    FAULTY("\xff", SRM_FAULT_NO_TEXT, 0, "that is no text of at most 65536 bytes");
    faulty(long_text, sizeof long_text, SRM_FAULT_NO_TEXT, 0, "that is no text");
    faulty(long_text, SIZE_MAX, SRM_FAULT_NO_TEXT, 0, "that is no text"); /* it is not read */
    FAULTY("session = 7\nringyew", SRM_FAULT_NOT_TOML, 2, "that is no TOML: ");
    faulty(NULL, 0, SRM_FAULT_LACKS, 0, "there is no `ringyew`");
    FAULTY("ringyew = 2\n" ADA SETTINGS, SRM_FAULT_WRONG, 1, "`ringyew` is of another kind or out of its range");
    FAULTY("ringyew = 1\nsession = 7\nkey = \"000102030405060708090a0b0c0d0e\"\n" ADA SETTINGS, SRM_FAULT_KEY_LENGTH, 3, "the key is too short or too long");
    FAULTY("ringyew = 1\nsession = 7\nkey = \"000102030405060708090a0b0c0d0e0f\"\nmember = []\n" SETTINGS, SRM_FAULT_NO_MEMBER, 0, "there is no member");
    FAULTY(HEAD "[[member]]\nname = \"7\"\naddress = \"192.0.2.7:47100\"\n" SETTINGS, SRM_FAULT_NAME, 6, "member 0: `name` is none");
    FAULTY(HEAD "[[member]]\nname = \"ada\"\naddress = \"192.0.2.7:0\"\n" SETTINGS, SRM_FAULT_ADDRESS, 7, "member 0: `address` is none");
    FAULTY(HEAD ADA "[[member]]\nname = \"ada\"\naddress = \"192.0.2.9:1\"\n" SETTINGS, SRM_FAULT_NAME_TWICE, 10, "member 1: a member before has its `name` too");
    FAULTY(HEAD ADA "[[member]]\nname = \"bob\"\naddress = \"192.0.2.7:47100\"\n" SETTINGS, SRM_FAULT_ADDRESS_TWICE, 11, "member 1: a member before has its `address` too");
    FAULTY("colour = 1\n" OUR_ROOM, SRM_FAULT_UNKNOWN, 1, "there is a key that isn't known");
}

/* A room has 32 members at most. */
static void many_members(void)
{
    static char text[4096];
    int length = snprintf(text, sizeof text, "%s%s", HEAD, "");
    for (int member = 0; member < 33; member++) {
        srm_room *room;
        length += snprintf(text + length, sizeof text - (size_t)length, "[[member]]\nname = \"m%d\"\naddress = \"ada:%d\"\n", member, 1 + member);
        int whole = length + snprintf(text + length, sizeof text - (size_t)length, "%s", SETTINGS);
        if (member < 32) {
            WANT(srm_room_read(&room, text, (size_t)whole, NULL), SRM_OK);
            WANT(srm_room_members(room), member + 1);
            srm_room_free(room);
        } else {
            faulty(text, (size_t)whole, SRM_FAULT_TOO_MANY, 101, "there are more than 32 members");
        }
    }
}

/* What a room says of itself and of its members. */
static void asking(void)
{
    static const char *const names[] = {"ada", "gr\xc3\xa4" "ce", "bob"}, *const addresses[] = {"192.0.2.7:47100", "[2001:db8::7]:47101", "bob.example:65535"};
    static const char *const none[] = {"", "eve", "3", "-1", "4294967296", "Ada", "ada ", "grace"};
    srm_room *room = our_room();
    char buffer[SRM_NAME_MAX + 1];
    size_t length;
    unsigned place;
    WANT(srm_room_members(room), 3);
    WANT(srm_room_linger(room), 2000000);
    WANT(srm_room_most_missing(room), 9);
    for (unsigned member = 0; member < 3; member++) {
        const char digits[] = {(char)('0' + member), 0};
        WANT(srm_room_find(room, names[member], &place), SRM_OK);
        WANT(place, member);
        WANT(srm_room_find(room, digits, &place), SRM_OK);
        WANT(place, member);
        WANT(srm_room_name(room, member, buffer, sizeof buffer, &length), SRM_OK);
        WANT(length, strlen(names[member]));
        WANT(strcmp(buffer, names[member]), 0);
        WANT(srm_room_address(room, member, buffer, sizeof buffer, &length), SRM_OK);
        WANT(length, strlen(addresses[member]));
        WANT(strcmp(buffer, addresses[member]), 0);
    }
    FILL(place);
    for (size_t i = 0; i < sizeof none / sizeof *none; i++)
        WANT(srm_room_find(room, none[i], &place), SRM_ERROR_MEMBER);
    WANT(srm_room_find(room, NULL, &place), SRM_ERROR_NULL);
    WANT(srm_room_find(room, "ada", NULL), SRM_ERROR_NULL);
    STAYS(place);
    FILL(buffer), FILL(length);
    WANT(srm_room_name(room, 3, buffer, sizeof buffer, &length), SRM_ERROR_MEMBER);
    WANT(srm_room_name(room, UINT32_MAX, buffer, sizeof buffer, &length), SRM_ERROR_MEMBER);
    WANT(srm_room_address(room, 3, buffer, sizeof buffer, &length), SRM_ERROR_MEMBER);
    WANT(srm_room_name(room, 0, NULL, 1, &length), SRM_ERROR_NULL);
    WANT(srm_room_address(room, 0, NULL, 1, &length), SRM_ERROR_NULL);
    STAYS(length);
    WANT(srm_room_name(room, 0, buffer, 4, NULL), SRM_ERROR_NULL);
    WANT(srm_room_address(room, 0, buffer, 4, NULL), SRM_ERROR_NULL);
    for (size_t size = 0; size < 4; size++) {
        length = 0;
        WANT(srm_room_name(room, 0, size ? buffer : NULL, size, &length), SRM_ERROR_BUFFER);
        WANT(length, 3);
    }
    WANT(srm_room_address(room, 2, buffer, 17, &length), SRM_ERROR_BUFFER);
    WANT(length, 17);
    STAYS(buffer);
    WANT(srm_room_name(room, 0, buffer, 4, &length), SRM_OK);
    WANT(strcmp(buffer, "ada"), 0);
    WANT(is_filled(buffer + 4, sizeof buffer - 4), 1);
    WANT(srm_room_name(room, 0, buffer, SIZE_MAX, &length), SRM_OK);
    srm_room_free(room);
}

/* The settings of each member, which an agent takes. */
static void settings(void)
{
    srm_room *room = our_room();
    srm_config config;
    srm_agent *agent;
    for (uint8_t me = 0; me < 3; me++) {
        srm_config_default(&config);
        WANT(srm_room_config(room, me, &config), SRM_OK);
        WANT(config.size, sizeof config);
        WANT(config.session, UINT32_MAX);
        WANT(config.rate, 64000);
        WANT(config.depth, 4204);
        WANT(config.me, me);
        WANT(config.members, 3);
        WANT(config.c1 == 2 && config.c2 == 3 && config.d1 == 1 && config.d2 == 4, 1);
        WANT(config.least_distance, 5000);
        WANT(srm_agent_new(&agent, &config, 0, 0), SRM_OK);
        srm_agent_free(agent);
    }
    FILL(config);
    WANT(srm_room_config(room, 0, &config), SRM_ERROR_CONFIG);
    STAYS(config);
    config.size = SRM_CONFIG_SIZE_MIN;
    WANT(srm_room_config(room, 0, &config), SRM_ERROR_CONFIG);
    config.size = sizeof config;
    WANT(srm_room_config(room, 3, &config), SRM_ERROR_MEMBER);
    WANT(srm_room_config(room, 32, &config), SRM_ERROR_MEMBER);
    WANT(srm_room_config(room, 256, &config), SRM_ERROR_MEMBER);
    WANT(srm_room_config(NULL, 0, &config), SRM_ERROR_NULL);
    WANT(srm_room_config(room, 0, NULL), SRM_ERROR_NULL);
    WANT(is_filled((char *)&config + 4, sizeof config - 4), 1);
    srm_room_free(room);
}

/* Bytes that Python's hmac gave: what member 0 sends to member 1 as the 259th and 260th, and what an older version made of the first. */
static const uint8_t hi[] = {0x68, 0x69, 0x00, 0x00, 0x00, 0x00, 0x00, 0x00, 0x00, 0x01, 0x02, 0x5d, 0x3a, 0x92, 0x72, 0xa4, 0x33, 0x67, 0x0d, 0x94, 0x35, 0x62, 0x2c, 0x43, 0xba, 0xd6, 0x78};
static const uint8_t nothing[] = {0x00, 0x00, 0x00, 0x00, 0x00, 0x00, 0x00, 0x01, 0x03, 0xcb, 0x8e, 0x24, 0x22, 0x45, 0x92, 0x9c, 0x6c, 0x6e, 0xdb, 0x1e, 0xab, 0x9a, 0xb0, 0x4f, 0xaa};
static const uint8_t old_hi[] = {0x68, 0x69, 0x9d, 0x33, 0xd0, 0x1c, 0x1f, 0x90, 0x24, 0x45, 0x8f, 0xf7, 0xdb, 0x4a, 0x21, 0x56, 0xae, 0xc5};

static void sealing(void)
{
    srm_guard *g = guard_of(0, 258), *last = guard_of(0, UINT64_MAX - 1);
    uint8_t buffer[SRM_SEALED_MAX], most[SRM_DATAGRAM_MAX] = {0};
    size_t sealed = 77;
    FILL(buffer), FILL(sealed);
    WANT(srm_guard_seal(NULL, 1, "hi", 2, buffer, sizeof buffer, &sealed), SRM_ERROR_NULL);
    WANT(srm_guard_seal(g, 1, NULL, 2, buffer, sizeof buffer, &sealed), SRM_ERROR_NULL);
    WANT(srm_guard_seal(g, 1, "hi", 2, NULL, 1, &sealed), SRM_ERROR_NULL);
    WANT(srm_guard_seal(g, 1, "hi", 2, buffer, sizeof buffer, NULL), SRM_ERROR_NULL);
    WANT(srm_guard_seal(g, 1, "hi", (size_t)PTRDIFF_MAX + 1, buffer, sizeof buffer, &sealed), SRM_ERROR_LENGTH);
    WANT(srm_guard_seal(g, 32, "hi", 2, buffer, sizeof buffer, &sealed), SRM_ERROR_MEMBER);
    WANT(srm_guard_seal(g, 256, "hi", 2, buffer, sizeof buffer, &sealed), SRM_ERROR_MEMBER);
    STAYS(sealed);
    for (size_t size = 0; size < 27; size++) {
        WANT(srm_guard_seal(g, 1, "hi", 2, size ? buffer : NULL, size, &sealed), SRM_ERROR_BUFFER);
        WANT(sealed, 27);
    }
    STAYS(buffer);
    WANT(srm_guard_seal(g, 1, "hi", 2, buffer, 27, &sealed), SRM_OK); /* no refusal used a counter */
    WANT(sealed, sizeof hi);
    WANT(memcmp(buffer, hi, sizeof hi), 0);
    WANT(is_filled(buffer + 27, sizeof buffer - 27), 1);
    WANT(srm_guard_seal(g, 1, NULL, 0, buffer, SIZE_MAX, &sealed), SRM_OK);
    WANT(sealed, sizeof nothing);
    WANT(memcmp(buffer, nothing, sizeof nothing), 0);
    WANT(srm_guard_seal(g, 2, most, sizeof most, buffer, sizeof buffer, &sealed), SRM_OK);
    WANT(sealed, SRM_SEALED_MAX);
    WANT(buffer[SRM_DATAGRAM_MAX + 8], 2); /* each member has its own counter */
    WANT(srm_guard_seal(last, 1, "hi", 2, buffer, sizeof buffer, &sealed), SRM_OK);
    FILL(buffer), FILL(sealed);
    WANT(srm_guard_seal(last, 1, "hi", 2, buffer, sizeof buffer, &sealed), SRM_ERROR_COUNTERS);
    STAYS(buffer);
    STAYS(sealed);
    WANT(srm_guard_seal(last, 2, "hi", 2, buffer, sizeof buffer, &sealed), SRM_OK);
    srm_guard_free(g);
    srm_guard_free(last);
    srm_guard_free(NULL);
}

static void opening(void)
{
    srm_guard *g = guard_of(1, 0), *other = guard_of(2, 0);
    uint8_t changed[sizeof hi];
    size_t opened;
    FILL(opened);
    WANT(srm_guard_open(NULL, hi, sizeof hi, &opened), SRM_ERROR_NULL);
    WANT(srm_guard_open(g, NULL, 1, &opened), SRM_ERROR_NULL);
    WANT(srm_guard_open(g, hi, sizeof hi, NULL), SRM_ERROR_NULL);
    WANT(srm_guard_open(g, hi, SIZE_MAX, &opened), SRM_ERROR_LENGTH);
    WANT(srm_guard_open(g, NULL, 0, &opened), SRM_ERROR_UNTAGGED);
    for (size_t place = 0; place < sizeof hi; place++) {
        memcpy(changed, hi, sizeof hi);
        changed[place] ^= 1;
        WANT(srm_guard_open(g, changed, sizeof changed, &opened), SRM_ERROR_UNTAGGED);
        WANT(srm_guard_open(g, hi, place, &opened), SRM_ERROR_UNTAGGED);
    }
    WANT(srm_guard_open(g, old_hi, sizeof old_hi, &opened), SRM_ERROR_OLDER);
    WANT(srm_guard_open(other, hi, sizeof hi, &opened), SRM_ERROR_UNTAGGED); /* it was sealed for member 1 */
    STAYS(opened);
    WANT(srm_guard_open(g, hi, sizeof hi, &opened), SRM_OK);
    WANT(opened, 2);
    FILL(opened);
    WANT(srm_guard_open(g, hi, sizeof hi, &opened), SRM_ERROR_AGAIN);
    STAYS(opened);
    WANT(srm_guard_open(g, nothing, sizeof nothing, &opened), SRM_OK);
    WANT(opened, 0);
    srm_guard_free(g);
    srm_guard_free(other);
}

/* A counter that lies 4,096 or more below the greatest of its sender came too late. */
static void late(void)
{
    srm_guard *from = guard_of(0, 100), *soon = guard_of(0, 99 + 4096), *g = guard_of(1, 0);
    uint8_t first[27], second[27], far[27];
    size_t sealed, opened;
    WANT(srm_guard_seal(from, 1, "hi", 2, first, sizeof first, &sealed), SRM_OK);
    WANT(srm_guard_seal(from, 1, "hi", 2, second, sizeof second, &sealed), SRM_OK);
    for (int i = 0; i < 2; i++)
        WANT(srm_guard_seal(soon, 1, "hi", 2, far, sizeof far, &sealed), SRM_OK);
    WANT(srm_guard_open(g, far, sizeof far, &opened), SRM_OK); /* 4,196 */
    WANT(srm_guard_open(g, first, sizeof first, &opened), SRM_ERROR_AGAIN);
    WANT(srm_guard_open(g, second, sizeof second, &opened), SRM_OK);
    srm_guard_free(from);
    srm_guard_free(soon);
    srm_guard_free(g);
}

/* Keys of each length, and the guards of a room, which have its key. */
static void keys(void)
{
    static const uint8_t key[SRM_KEY_MAX + 1];
    srm_room *room = our_room();
    srm_guard *g;
    uint8_t buffer[27];
    size_t sealed, opened;
    WANT(srm_guard_new(NULL, key, 16, 0, 0), SRM_ERROR_NULL);
    WANT(srm_guard_new(&g, NULL, 1, 0, 0), SRM_ERROR_NULL);
    WANT(g == NULL, 1);
    static const size_t bad[] = {0, 1, SRM_KEY_MIN - 1, SRM_KEY_MAX + 1, SIZE_MAX}; /* no more than a byte too many is read */
    for (size_t i = 0; i < sizeof bad / sizeof *bad; i++) {
        g = (srm_guard *)&g;
        WANT(srm_guard_new(&g, bad[i] ? key : NULL, bad[i], 0, 0), SRM_ERROR_KEY);
        WANT(g == NULL, 1);
    }
    static const unsigned no_members[] = {32, 256, UINT32_MAX};
    for (size_t i = 0; i < sizeof no_members / sizeof *no_members; i++) {
        g = (srm_guard *)&g;
        WANT(srm_guard_new(&g, key, 0, no_members[i], 0), SRM_ERROR_MEMBER);
        WANT(srm_room_guard(&g, room, no_members[i], 0), SRM_ERROR_MEMBER);
        WANT(g == NULL, 1);
    }
    WANT(srm_guard_new(&g, key, SRM_KEY_MIN, 31, 0), SRM_OK);
    srm_guard_free(g);
    WANT(srm_guard_new(&g, key, SRM_KEY_MAX, 0, 0), SRM_OK);
    srm_guard_free(g);
    WANT(srm_room_guard(NULL, room, 0, 0), SRM_ERROR_NULL);
    WANT(srm_room_guard(&g, NULL, 0, 0), SRM_ERROR_NULL);
    WANT(srm_room_guard(&g, room, 3, 0), SRM_ERROR_MEMBER);
    WANT(srm_room_guard(&g, room, 0, 258), SRM_OK);
    WANT(srm_guard_seal(g, 1, "hi", 2, buffer, sizeof buffer, &sealed), SRM_OK);
    WANT(memcmp(buffer, hi, sizeof hi), 0);
    srm_guard_free(g);
    WANT(srm_room_guard(&g, room, 1, 0), SRM_OK);
    srm_room_free(room);
    WANT(srm_guard_open(g, hi, sizeof hi, &opened), SRM_OK); /* without the room */
    srm_guard_free(g);
}

/* Without a room or guard, by memory of zeroes; and where several codes hold the first of the header's list is returned. */
static void nobody(void)
{
    uint64_t zeroes[4] = {0};
    srm_room *room = (srm_room *)zeroes;
    srm_guard *guard = (srm_guard *)zeroes, *made;
    srm_config config;
    char buffer[30];
    size_t length;
    unsigned place;
    srm_config_default(&config);
    FILL(buffer), FILL(length), FILL(place);
    WANT(srm_room_members(room) + srm_room_linger(room) + srm_room_most_missing(room), 0);
    WANT(srm_room_members(NULL) + srm_room_linger(NULL) + srm_room_most_missing(NULL), 0);
    WANT(srm_room_find(room, "ada", &place), SRM_ERROR_EMPTY);
    WANT(srm_room_find(NULL, "ada", &place), SRM_ERROR_NULL);
    WANT(srm_room_name(room, 0, buffer, sizeof buffer, &length), SRM_ERROR_EMPTY);
    WANT(srm_room_name(NULL, 0, buffer, sizeof buffer, &length), SRM_ERROR_NULL);
    WANT(srm_room_address(room, 0, buffer, sizeof buffer, &length), SRM_ERROR_EMPTY);
    WANT(srm_room_address(NULL, 0, buffer, sizeof buffer, &length), SRM_ERROR_NULL);
    WANT(srm_room_config(room, 0, &config), SRM_ERROR_EMPTY);
    WANT(config.members, 1);
    WANT(srm_room_guard(&made, room, 0, 0), SRM_ERROR_EMPTY);
    WANT(srm_guard_seal(guard, 0, "hi", 2, buffer, sizeof buffer, &length), SRM_ERROR_EMPTY);
    WANT(srm_guard_seal(guard, 32, "hi", 2, buffer, 1, &length), SRM_ERROR_MEMBER);
    WANT(srm_guard_seal(guard, 32, "hi", SIZE_MAX, buffer, 1, &length), SRM_ERROR_LENGTH);
    WANT(srm_guard_open(guard, hi, sizeof hi, &length), SRM_ERROR_EMPTY);
    WANT(srm_guard_open(guard, hi, SIZE_MAX, &length), SRM_ERROR_LENGTH);
    STAYS(buffer);
    STAYS(length);
    STAYS(place);
    WANT(zeroes[0] | zeroes[1] | zeroes[2] | zeroes[3], 0);
}

int main(void)
{
    reading();
    many_members();
    asking();
    settings();
    sealing();
    opening();
    late();
    keys();
    nobody();
    return failures != 0;
}
