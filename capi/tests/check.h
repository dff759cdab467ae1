/* What the tests of libsrm share: an answer that isn't the wanted one is told, and counts. */
#ifndef CHECK_H
#define CHECK_H

#include <stdio.h>
#include <stdlib.h>
#include <string.h>

#include <srm.h>

static int failures;

#define WANT(call, wanted)                                                                                              \
    do {                                                                                                                \
        long long got_ = (long long)(call), want_ = (long long)(wanted);                                                \
        if (got_ != want_) {                                                                                            \
            printf("%s:%d: %s answered %lld, and not %lld\n", __FILE__, __LINE__, #call, got_, want_);                  \
            failures++;                                                                                                 \
        }                                                                                                               \
    } while (0)

/* Words of a generator (xorshift64), which a seed that isn't 0 starts. */
static inline uint64_t next_word(uint64_t *word)
{
    *word ^= *word << 13;
    *word ^= *word >> 7;
    *word ^= *word << 17;
    return *word;
}

static inline srm_config config_of(uint8_t me, uint8_t members)
{
    srm_config config;
    srm_config_default(&config);
    config.me = me;
    config.members = members;
    config.session = 7;
    return config;
}

#endif
