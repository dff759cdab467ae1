/* Tells on standard error of each call's code, as `srm_agent_draw 17`, once at each place. It is included before the text of a test. */
#ifndef CODED_H
#define CODED_H

#include <stdio.h>

#include <srm.h>

#define CODED(name, call)                              \
    __extension__({                                    \
        static uint64_t seen_;                         \
        int code_ = (call);                            \
        if (!(seen_ >> code_ & 1))                     \
            fprintf(stderr, "%s %d\n", (name), code_); \
        seen_ |= UINT64_C(1) << code_;                 \
        code_;                                         \
    })

#define srm_agent_new(...) CODED("srm_agent_new", srm_agent_new(__VA_ARGS__))
#define srm_agent_draw(...) CODED("srm_agent_draw", srm_agent_draw(__VA_ARGS__))
#define srm_agent_new_page(...) CODED("srm_agent_new_page", srm_agent_new_page(__VA_ARGS__))
#define srm_agent_show(...) CODED("srm_agent_show", srm_agent_show(__VA_ARGS__))
#define srm_agent_leave(...) CODED("srm_agent_leave", srm_agent_leave(__VA_ARGS__))
#define srm_agent_hear(...) CODED("srm_agent_hear", srm_agent_hear(__VA_ARGS__))
#define srm_agent_tick(...) CODED("srm_agent_tick", srm_agent_tick(__VA_ARGS__))
#define srm_agent_next_datagram(...) CODED("srm_agent_next_datagram", srm_agent_next_datagram(__VA_ARGS__))
#define srm_agent_next_request(...) CODED("srm_agent_next_request", srm_agent_next_request(__VA_ARGS__))
#define srm_agent_next_repair(...) CODED("srm_agent_next_repair", srm_agent_next_repair(__VA_ARGS__))
#define srm_agent_distance(...) CODED("srm_agent_distance", srm_agent_distance(__VA_ARGS__))
#define srm_agent_known(...) CODED("srm_agent_known", srm_agent_known(__VA_ARGS__))
#define srm_agent_missing(...) CODED("srm_agent_missing", srm_agent_missing(__VA_ARGS__))
#define srm_agent_next_missing(...) CODED("srm_agent_next_missing", srm_agent_next_missing(__VA_ARGS__))
#define srm_agent_outstanding(...) CODED("srm_agent_outstanding", srm_agent_outstanding(__VA_ARGS__))
#define srm_agent_give(...) CODED("srm_agent_give", srm_agent_give(__VA_ARGS__))
#define srm_room_read(...) CODED("srm_room_read", srm_room_read(__VA_ARGS__))
#define srm_room_find(...) CODED("srm_room_find", srm_room_find(__VA_ARGS__))
#define srm_room_name(...) CODED("srm_room_name", srm_room_name(__VA_ARGS__))
#define srm_room_address(...) CODED("srm_room_address", srm_room_address(__VA_ARGS__))
#define srm_room_config(...) CODED("srm_room_config", srm_room_config(__VA_ARGS__))
#define srm_room_guard(...) CODED("srm_room_guard", srm_room_guard(__VA_ARGS__))
#define srm_guard_new(...) CODED("srm_guard_new", srm_guard_new(__VA_ARGS__))
#define srm_guard_seal(...) CODED("srm_guard_seal", srm_guard_seal(__VA_ARGS__))
#define srm_guard_open(...) CODED("srm_guard_open", srm_guard_open(__VA_ARGS__))

#endif
