/* norm_send PORT MESSAGES BYTES: sends so many messages of so many bytes over NORM, unpaced, to nodes 2 and 3 by multicast on the loopback, and ends once both have all.
 *
 * A segment is as long as a message, so each message is one datagram. Status: 0; 1 where NORM refuses a call; 2 for a wrong command line. */
#include <normApi.h>
#include <stdio.h>
#include <stdlib.h>
#include <string.h>
#include <unistd.h>

enum { OWN = 1, FIRST_RECEIVER = 2, LAST_RECEIVER = 3 };

#define GROUP "239.7.7.7"
#define BUFFER (16u << 20)
#define SOCKET_BUFFER (4u << 20)
#define BITS_A_SECOND 1e10
#define ROUND_TRIP 0.001
#define BLOCK 64
/* So many seconds it runs at most: a peer that never comes ends it. */
#define LIMIT 60

static void stop(const char *what)
{
    fprintf(stderr, "norm_send: %s failed\n", what);
    exit(1);
}

/* Waits for an event of this kind. */
static void await(NormInstanceHandle instance, NormEventType kind)
{
    NormEvent event;
    do {
        if (!NormGetNextEvent(instance, &event, true))
            stop("NormGetNextEvent");
    } while (event.type != kind);
}

static NormSessionHandle start(NormInstanceHandle instance, unsigned short port, unsigned short bytes)
{
    NormSessionHandle session = NormCreateSession(instance, GROUP, port, OWN);
    if (session == NORM_SESSION_INVALID)
        stop("NormCreateSession");
    NormSetMulticastInterface(session, "lo");
    NormSetRxPortReuse(session, true, NULL, NULL, 0);
    NormSetMulticastLoopback(session, true);
    NormSetCongestionControl(session, false, false);
    NormSetTxRate(session, BITS_A_SECOND);
    NormSetGrttEstimate(session, ROUND_TRIP);
    NormSetGrttProbingMode(session, NORM_PROBE_NONE);
    for (NormNodeId node = FIRST_RECEIVER; node <= LAST_RECEIVER; node++)
        NormAddAckingNode(session, node);
    /* Only a started sender has a socket, whose buffer can be set. */
    if (!NormStartSender(session, OWN, BUFFER, bytes, BLOCK, 0))
        stop("NormStartSender");
    NormSetTxSocketBuffer(session, SOCKET_BUFFER);
    return session;
}

static void send_all(NormInstanceHandle instance, NormObjectHandle stream, long messages, unsigned short bytes)
{
    char *message = static_cast<char *>(malloc(bytes));
    if (message == NULL)
        stop("malloc");
    memset(message, 'x', bytes);
    for (long i = 0; i < messages; i++)
        for (unsigned sent = 0; sent < bytes;) {
            sent += NormStreamWrite(stream, message + sent, bytes - sent);
            if (sent < bytes)
                await(instance, NORM_TX_QUEUE_VACANCY);
        }
    free(message);
}

/* Waits until both receivers have said that they have all. NORM gives up after some tries, on a busy machine before they answered: then it asks again. */
static void await_both(NormSessionHandle session, NormInstanceHandle instance, NormObjectHandle stream)
{
    if (!NormSetWatermark(session, stream, false))
        stop("NormSetWatermark");
    await(instance, NORM_TX_WATERMARK_COMPLETED);
    while (NormGetAckingStatus(session, NORM_NODE_ANY) != NORM_ACK_SUCCESS) {
        if (!NormResetWatermark(session))
            stop("NormResetWatermark");
        await(instance, NORM_TX_WATERMARK_COMPLETED);
    }
}

int main(int argc, char **argv)
{
    if (argc != 4) {
        fputs("usage: norm_send PORT MESSAGES BYTES\n", stderr);
        return 2;
    }
    unsigned short port = (unsigned short)atoi(argv[1]), bytes = (unsigned short)atoi(argv[3]);
    long messages = atol(argv[2]);
    alarm(LIMIT);
    NormInstanceHandle instance = NormCreateInstance(false);
    NormSessionHandle session = start(instance, port, bytes);
    NormObjectHandle stream = NormStreamOpen(session, BUFFER, NULL, 0);
    if (stream == NORM_OBJECT_INVALID)
        stop("NormStreamOpen");
    send_all(instance, stream, messages, bytes);
    /* The end of a stream is told by closing it, so one more message says it: its receivers count. */
    send_all(instance, stream, 1, bytes);
    NormStreamFlush(stream, false, NORM_FLUSH_ACTIVE);
    await_both(session, instance, stream);
    NormDestroyInstance(instance);
    return 0;
}
