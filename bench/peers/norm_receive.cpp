/* norm_receive PORT NODE MESSAGES BYTES: takes so many messages of so many bytes over NORM by multicast on the loopback, as this node, and one more, and ends.
 *
 * It prints `ready` once it hears, and `took N` at its end. Status: 0; 1 where NORM refuses a call; 2 for a wrong command line. */
#include <normApi.h>
#include <stdio.h>
#include <stdlib.h>
#include <unistd.h>

#define GROUP "239.7.7.7"
#define BUFFER (16u << 20)
#define SOCKET_BUFFER (4u << 20)
#define CHUNK 65536
/* So long, in microseconds, it answers its sender behind the last message. */
#define LINGER 500000
/* So many seconds it runs at most: a sender that never comes ends it. */
#define LIMIT 60

static void stop(const char *what)
{
    fprintf(stderr, "norm_receive: %s failed\n", what);
    exit(1);
}

static NormSessionHandle start(NormInstanceHandle instance, unsigned short port, NormNodeId node, int has_buffer)
{
    NormSessionHandle session = NormCreateSession(instance, GROUP, port, node);
    if (session == NORM_SESSION_INVALID)
        stop("NormCreateSession");
    NormSetMulticastInterface(session, "lo");
    NormSetRxPortReuse(session, true, NULL, NULL, 0);
    NormSetMulticastLoopback(session, true);
    if (!NormStartReceiver(session, BUFFER))
        stop("NormStartReceiver");
    if (has_buffer)
        NormSetRxSocketBuffer(session, SOCKET_BUFFER);
    return session;
}

/* Takes what the stream has, and returns how many bytes that was. */
static long take(NormObjectHandle stream)
{
    static char chunk[CHUNK];
    long all = 0;
    unsigned count;
    do {
        count = CHUNK;
        if (!NormStreamRead(stream, chunk, &count))
            stop("NormStreamRead");
        all += count;
    } while (count > 0);
    return all;
}

int main(int argc, char **argv)
{
    if (argc != 5) {
        fputs("usage: norm_receive PORT NODE MESSAGES BYTES\n", stderr);
        return 2;
    }
    long bytes = atol(argv[4]), wanted = (atol(argv[3]) + 1) * bytes, taken = 0;
    alarm(LIMIT);
    NormInstanceHandle instance = NormCreateInstance(false);
    start(instance, (unsigned short)atoi(argv[1]), (NormNodeId)atoi(argv[2]), getenv("NORM_BUFFER") != NULL);
    puts("ready");
    fflush(stdout);
    while (taken < wanted) {
        NormEvent event;
        if (!NormGetNextEvent(instance, &event, true))
            stop("NormGetNextEvent");
        if (event.type == NORM_RX_OBJECT_UPDATED)
            taken += take(event.object);
    }
    usleep(LINGER);
    printf("took %ld\n", taken / bytes - 1);
    NormDestroyInstance(instance);
    return 0;
}
