/* What a call of an agent costs by libsrm, and made from Rattle: the same calls, by the exports of crates/srm_bench, less what their reading costs. And
 * what memory a new agent takes. Linked with --wrap for each of malloc, calloc, realloc and free. */
#define _POSIX_C_SOURCE 200809L
#include <malloc.h>
#include <stdio.h>
#include <stdlib.h>
#include <string.h>
#include <time.h>

#include <srm.h>

enum { CALLS = 200000, RUNS = 15, HEAR = 0, TICK = 1, GIVE = 2, DUE = 5, REST = 6 };

size_t srm_calls(uint8_t me, uint8_t members, uint32_t rate, uint32_t depth, uint32_t count, const uint8_t *calls, size_t calls_length, uint64_t *told,
                 size_t told_length);

static long long taken, most;

void *__real_malloc(size_t);
void *__real_calloc(size_t, size_t);
void *__real_realloc(void *, size_t);
void __real_free(void *);

static void *counted(void *at)
{
    taken += at ? (long long)malloc_usable_size(at) : 0;
    if (taken > most)
        most = taken;
    return at;
}

void *__wrap_malloc(size_t size) { return counted(__real_malloc(size)); }
void *__wrap_calloc(size_t count, size_t size) { return counted(__real_calloc(count, size)); }

void __wrap_free(void *at)
{
    taken -= at ? (long long)malloc_usable_size(at) : 0;
    __real_free(at);
}

void *__wrap_realloc(void *old, size_t size)
{
    taken -= old ? (long long)malloc_usable_size(old) : 0;
    return counted(__real_realloc(old, size));
}

static double now(void)
{
    struct timespec t;
    clock_gettime(CLOCK_MONOTONIC, &t);
    return (double)t.tv_sec * 1e9 + (double)t.tv_nsec;
}

static void must(int code)
{
    if (code != SRM_OK)
        exit(1);
}

static srm_agent *agent_of(uint8_t me)
{
    srm_config config;
    srm_config_default(&config);
    config.me = me;
    config.members = 2;
    config.session = 7;
    config.rate = SRM_RATE_MAX;
    config.depth = SRM_DEPTH_MAX;
    srm_agent *agent;
    must(srm_agent_new(&agent, &config, 1, 0));
    return agent;
}

/* The least time of a call in nanoseconds, by libsrm. */
static double by_c(int kind, const uint8_t *bytes, size_t length)
{
    double least = 1e18;
    volatile uint64_t sum = 0;
    srm_message message;
    for (int run = 0; run < RUNS; run++) {
        srm_agent *agent = agent_of(0);
        must(srm_agent_hear(agent, bytes, length, 0, NULL));
        while (srm_agent_give(agent, 0, &message) == SRM_OK)
            ;
        double start = now();
        for (int i = 0; i < CALLS; i++)
            sum += kind == HEAR   ? (uint64_t)srm_agent_hear(agent, bytes, length, 0, NULL)
                   : kind == TICK ? (uint64_t)srm_agent_tick(agent, 0, NULL)
                   : kind == GIVE ? (uint64_t)srm_agent_give(agent, 0, &message)
                                  : srm_agent_next_due(agent);
        double took = (now() - start) / CALLS;
        least = took < least ? took : least;
        srm_agent_free(agent);
    }
    return least;
}

/* The same from Rattle, behind the hearing and the gives that make no difference. */
static double by_rattle(int kind, const uint8_t *bytes, size_t length)
{
    size_t size = 8 + length;
    uint8_t *calls = calloc(CALLS + 8, size), *at = calls;
    if (!calls)
        exit(1);
    uint32_t count = 0;
    for (int i = 0; i < CALLS + 8; i++, count++) {
        int of = i == 0 ? HEAR : i < 8 ? GIVE : kind;
        size_t many = of == HEAR || of == REST ? length : 0;
        at[0] = (uint8_t)of;
        at[2] = (uint8_t)(many >> 8);
        at[3] = (uint8_t)many;
        memcpy(at + 8, bytes, many);
        at += 8 + many;
    }
    double least = 1e18;
    for (int run = 0; run < RUNS; run++) {
        double start = now();
        if (srm_calls(0, 2, SRM_RATE_MAX, SRM_DEPTH_MAX, count, calls, (size_t)(at - calls), NULL, 0) == SIZE_MAX)
            exit(1);
        double took = (now() - start) / CALLS;
        least = took < least ? took : least;
    }
    free(calls);
    return least;
}

static void compare(const char *title, int kind, const uint8_t *bytes, size_t length)
{
    double c = by_c(kind, bytes, length), rattle = by_rattle(kind, bytes, length) - by_rattle(REST, bytes, kind == HEAR ? length : 0);
    printf("%-28s %8.1f %8.1f %8.1f\n", title, c, rattle, c - rattle);
}

int main(void)
{
    srm_agent *drawer = agent_of(1);
    uint8_t body[64] = {7}, datagram[SRM_DATAGRAM_MAX], noise[64] = {1};
    size_t length;
    must(srm_agent_draw(drawer, SRM_FIRST_PAGE, body, sizeof body, 0, NULL));
    must(srm_agent_tick(drawer, 0, NULL));
    must(srm_agent_next_datagram(drawer, datagram, sizeof datagram, &length));
    srm_agent_free(drawer);
    printf("%-28s %8s %8s %8s\n", "nanoseconds a call", "C", "Rattle", "more");
    compare("next_due", DUE, datagram, length);
    compare("tick with nothing due", TICK, datagram, length);
    compare("give with nothing to give", GIVE, datagram, length);
    compare("hear a held stroke", HEAR, datagram, length);
    compare("hear noise", HEAR, noise, sizeof noise);
    most = taken = 0;
    srm_agent *agent = agent_of(0);
    printf("a new agent holds %lld bytes, and took %lld at most\n", taken, most);
    srm_agent_free(agent);
    return 0;
}
