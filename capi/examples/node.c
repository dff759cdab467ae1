/* A member over UDP: it joins a room, draws each line of its input on the first page, and prints what it is given, as `srm node` does.
 *
 *     cc node.c $(pkg-config --cflags --libs srm) -o node
 *     ./node --room FILE --me NAME     the name, or the place from 0
 *
 * Once its input ended it stays until nobody asked for anything for as long as the room says, and then leaves. */
#include <err.h>
#include <netdb.h>
#include <poll.h>
#include <srm.h>
#include <stdio.h>
#include <stdlib.h>
#include <string.h>
#include <sys/socket.h>
#include <time.h>
#include <unistd.h>

static srm_config config;
static srm_agent *agent;
static srm_guard *guard;
static struct { struct sockaddr_storage at; socklen_t size; } members[SRM_MEMBERS_MAX];
static int udp;
static uint64_t asked, linger; /* when somebody last asked for something, or got it; and how long the member stays from then on */
static char line[SRM_BODY_MAX + 1]; /* input that is not drawn yet: a byte more than the longest line, so that a longer one is seen */
static size_t have;                 /* how much of it there is */

static uint64_t micros(clockid_t clock)
{
    struct timespec t;
    clock_gettime(clock, &t);
    return (uint64_t)t.tv_sec * 1000000 + (uint64_t)t.tv_nsec / 1000;
}
static uint64_t now(void) { return micros(CLOCK_MONOTONIC); }

static void check(int code, const char *what)
{
    if (code != SRM_OK)
        errx(1, "%s: %s", what, srm_strerror(code));
}

static void send_all(void)
{
    uint8_t datagram[SRM_DATAGRAM_MAX], sealed[SRM_SEALED_MAX];
    for (size_t length, size; srm_agent_next_datagram(agent, datagram, sizeof datagram, &length) == SRM_OK;)
        for (unsigned to = 0; to < config.members; to++)
            if (to != config.me && srm_guard_seal(guard, to, datagram, length, sealed, sizeof sealed, &size) == SRM_OK)
                (void)!sendto(udp, sealed, size, MSG_DONTWAIT, (struct sockaddr *)&members[to].at, members[to].size); /* what is lost, here too, is asked for again */
}

static void receive_all(void)
{
    uint8_t came[SRM_SEALED_MAX + 1]; /* what is longer than the longest is no datagram */
    for (ssize_t length; (length = recv(udp, came, sizeof came, MSG_DONTWAIT)) >= 0;) {
        srm_heard heard;
        size_t opened; /* without the key, or for the second time: dropped; out of memory: it counts as lost */
        if (srm_guard_open(guard, came, (size_t)length, &opened) == SRM_OK && srm_agent_hear(agent, came, opened, now(), &heard) == SRM_OK && heard.timers)
            asked = now();
    }
}

static void print_given(void)
{
    for (unsigned slot = 0; slot < SRM_SLOTS; slot++)
        for (srm_message m; srm_agent_give(agent, slot, &m) == SRM_OK;) {
            printf("took %u %u ", config.me, slot);
            switch (m.kind) {
            case SRM_MESSAGE_OPEN: printf("open %u.%u\n", m.name.page.creator, m.name.page.number); break;
            case SRM_MESSAGE_DRAW: printf("draw %u %u %.*s\n", m.name.source, m.name.number, (int)m.length, (char *)m.body); break;
            case SRM_MESSAGE_LEFT: printf("left %u\n", m.name.source); break;
            case SRM_MESSAGE_CLOSE: puts("close"); break;
            }
        }
    fflush(stdout);
}

/* Waits for a datagram, the agent's next moment, `wake`, or input if it is wanted, and does what is then to be done. True where input came. */
static bool turn(uint64_t wake, bool reads)
{
    uint64_t due = srm_agent_next_due(agent), first = due < wake ? due : wake, moment = now(), wait = first <= moment ? 0 : first - moment;
    struct pollfd at[2] = {{udp, POLLIN, 0}, {reads ? STDIN_FILENO : -1, POLLIN, 0}};
    poll(at, 2, wait > 60000000 ? 60000 : (int)((wait + 999) / 1000));
    receive_all();
    srm_ticked ticked = {0};
    if (srm_agent_tick(agent, now(), &ticked) == SRM_OK && ticked.repairs) /* out of memory: it stays due */
        asked = now();
    send_all();
    print_given();
    return at[1].revents;
}

/* Draws whole lines as the rate lets them go. Returns from when on the next one goes: never where there is none, or a tick comes first. */
static uint64_t draw_lines(void)
{
    for (char *end; (end = (char *)memchr(line, '\n', have)); memmove(line, end + 1, have)) {
        size_t length = (size_t)(end - line);
        if (!srm_agent_admits(agent, length, now()))
            return srm_agent_admits_from(agent, length);
        check(srm_agent_draw(agent, SRM_FIRST_PAGE, line, length, now(), NULL), "draw");
        have -= length + 1;
        asked = now();
    }
    if (have == sizeof line)
        errx(1, "a line has more than %d bytes", SRM_BODY_MAX);
    return SRM_NEVER;
}

/* Reads more of the input, for which there is room. False at its end. */
static bool read_lines(void)
{
    ssize_t length = read(STDIN_FILENO, line + have, sizeof line - have);
    if (length > 0)
        have += (size_t)length;
    else if (have && line[have - 1] != '\n')
        line[have++] = '\n'; /* a last line without its end */
    return length > 0;
}

static srm_room *read_room(const char *path)
{
    static char text[SRM_ROOM_TEXT_MAX + 1];
    FILE *file = fopen(path, "r");
    size_t length = file ? fread(text, 1, sizeof text, file) : 0;
    if (!file || ferror(file) || fclose(file))
        err(1, "cannot read room %s", path);
    srm_room *room;
    srm_room_fault fault = {0};
    int code = srm_room_read(&room, text, length, &fault);
    if (fault.line)
        errx(1, "room %s, line %zu: %s", path, fault.line, fault.text);
    if (code == SRM_ERROR_FAULT)
        errx(1, "room %s: %s", path, fault.text);
    check(code, path);
    return room;
}

/* Finds the member's place; where there is none, tells whom the room has. */
static unsigned find(srm_room *room, const char *path, const char *me)
{
    char name[SRM_NAME_MAX + 1];
    unsigned place;
    size_t length;
    if (srm_room_find(room, me, &place) == SRM_OK)
        return place;
    fprintf(stderr, "node: room %s has no member %s: write --me with one of", path, me);
    for (place = 0; srm_room_name(room, place, name, sizeof name, &length) == SRM_OK; place++)
        fprintf(stderr, " %s%s", name, place + 1 < srm_room_members(room) ? "" : "\n");
    exit(1);
}

/* Resolves a member's address, once. All are to be of one kind. */
static void resolve(srm_room *room, unsigned place)
{
    char text[NI_MAXHOST + NI_MAXSERV], *host = text;
    size_t length;
    check(srm_room_address(room, place, text, sizeof text, &length), "a member's address");
    char *port = strrchr(text, ':');
    *port++ = 0;
    if (*host == '[') /* as of IPv6 */
        host++, port[-2] = 0;
    struct addrinfo *found, hints = {.ai_family = place ? members[0].at.ss_family : AF_UNSPEC, .ai_socktype = SOCK_DGRAM, .ai_flags = AI_NUMERICSERV};
    int why = getaddrinfo(host, port, &hints, &found);
    if (why)
        errx(1, "cannot find %s: %s: give all members an address of the same kind", host, gai_strerror(why));
    memcpy(&members[place].at, found->ai_addr, members[place].size = found->ai_addrlen);
    freeaddrinfo(found);
}

static void join(const char *path, const char *me)
{
    srm_room *room = read_room(path);
    srm_config_default(&config);
    check(srm_room_config(room, find(room, path, me), &config), "settings");
    for (unsigned place = 0; place < config.members; place++)
        resolve(room, place);
    udp = socket(members[0].at.ss_family, SOCK_DGRAM, 0);
    if (udp < 0 || bind(udp, (struct sockaddr *)&members[config.me].at, members[config.me].size))
        err(1, "bind");
    check(srm_room_guard(&guard, room, config.me, micros(CLOCK_REALTIME)), "guard");
    check(srm_agent_new(&agent, &config, now() ^ (uint64_t)getpid() << 32, now()), "join");
    linger = srm_room_linger(room);
    srm_room_free(room);
}

int main(int argc, char **argv)
{
    if (argc != 5 || strcmp(argv[1], "--room") || strcmp(argv[3], "--me"))
        return fputs("node: name a room and a member of it\nusage: node --room FILE --me NAME\n", stderr), 2;
    join(argv[2], argv[4]);
    for (bool ended = false; !ended || have || now() < asked + linger;) {
        uint64_t draws = draw_lines();
        if (turn(have ? draws : ended ? asked + linger : SRM_NEVER, !ended && have < sizeof line) && !read_lines())
            ended = true, asked = now();
    }
    check(srm_agent_leave(agent, now()), "leave");
    while (srm_agent_state(agent) != SRM_GONE)
        turn(SRM_NEVER, false);
    printf("gone %u\n", config.me);
    srm_agent_free(agent);
    srm_guard_free(guard);
}
