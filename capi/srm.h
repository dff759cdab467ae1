/**
 * @file srm.h
 * @brief libsrm: one member of a session of Scalable Reliable Multicast.
 *
 * An agent is a state machine: it has no clock, socket, thread or global state, and calls nothing of yours. You hand in
 * strokes, datagrams and moments; it returns datagrams to send and messages to show. The agent behind this header is proved;
 * docs/EMBEDDING.md says what is proved and where the proof ends.
 *
 * @code
 *     srm_config config;
 *     srm_config_default(&config);
 *     config.me = 0;
 *     config.members = 2;
 *     config.session = 7;
 *
 *     srm_agent *agent;
 *     if (srm_agent_new(&agent, &config, seed, now) != SRM_OK) ..
 *     if (srm_agent_draw(agent, SRM_FIRST_PAGE, "a line", 6, now, NULL) != SRM_OK) ..
 *
 *     // One timer, set to srm_agent_next_due(agent) after each call. When it expires:
 *     if (srm_agent_tick(agent, now, NULL) != SRM_OK) ..
 *     while (srm_agent_next_datagram(agent, buffer, sizeof buffer, &length) == SRM_OK)
 *         send_to_all_others(buffer, length);
 *     // When a datagram comes:
 *     if (srm_agent_hear(agent, bytes, length, now, NULL) != SRM_OK) ..
 *     // After each of these calls, for each slot from 0 to 7:
 *     while (srm_agent_give(agent, slot, &message) == SRM_OK) ..
 * @endcode
 *
 * Members of one room have a file in common, which `srm room new` writes: the session, a key, names and addresses. srm_room_read() reads
 * it, and a guard seals what goes to each member and opens what comes, so that nobody without the key takes part:
 *
 * @code
 *     srm_room *room;
 *     if (srm_room_read(&room, text, length, &fault) != SRM_OK) .. // fault.line, fault.text
 *     if (srm_room_find(room, "ada", &me) != SRM_OK) ..
 *     if (srm_room_config(room, me, &config) != SRM_OK) ..         // behind srm_config_default(&config)
 *     srm_guard *guard;
 *     if (srm_room_guard(&guard, room, me, micros_since_1970) != SRM_OK) ..
 *
 *     // For each other member, in place of the datagram alone:
 *     if (srm_guard_seal(guard, to, buffer, length, sealed, sizeof sealed, &sealed_length) != SRM_OK) ..
 *     // When bytes come:
 *     if (srm_guard_open(guard, bytes, length, &length) == SRM_OK)
 *         if (srm_agent_hear(agent, bytes, length, now, NULL) != SRM_OK) ..
 * @endcode
 *
 * @par Units
 * A moment is microseconds of the caller's own clock, from any beginning, at most ::SRM_MOMENT_MAX. Members' clocks need not
 * agree. A moment below the last one that counted counts as the last, so a clock that steps back does no harm.
 *
 * @par What calls return
 * ::SRM_OK, or another value of ::srm_code. A call that returns anything else changed nothing: neither the agent nor what it
 * would have written, unless the call says otherwise. What other members send is never an error of srm_agent_hear(); srm_guard_open() refuses
 * what is not to be heard.
 *
 * @par Ownership
 * srm_agent_new() makes an agent, srm_agent_free() ends it, and in between it belongs to the caller; so it is with rooms and guards. No call keeps a pointer
 * that it was passed, and none returns a pointer into what it was passed: what comes out is copied into memory of the caller's. A guard keeps its own copy of the
 * key, and a room may be freed before it.
 *
 * @par Threads
 * An agent, a room or a guard may move from thread to thread, but one call of it runs at a time: use a lock where several threads share it.
 * srm_agent_next_due(), srm_agent_state() and the other calls that only ask count as calls too. Different agents share nothing and
 * may be used at once. No call may come from a signal handler, or from the child of a fork in a process with threads.
 *
 * @par Rules that a caller may break
 * A NULL pointer, a moment past ::SRM_MOMENT_MAX, a slot past 7, a member past 31, a page that is not there, a buffer that is too
 * short and a length past PTRDIFF_MAX are refused with a code. C cannot see, and so no call tests: a pointer to something else, an agent
 * after srm_agent_free(), memory that is shorter than the length says, pointers of one call that overlap, two calls of one agent at once.
 *
 * @par Memory
 * comes from malloc, calloc, realloc and free. Where it is refused the call returns ::SRM_ERROR_MEMORY, and keeps what memory it got. Make
 * the same call again later, or let it be: a datagram that is not heard counts as lost, a tick stays due, and a message is still to be
 * given.
 */
#ifndef SRM_H
#define SRM_H

#include <stdbool.h>
#include <stddef.h>
#include <stdint.h>

#ifdef __cplusplus
extern "C" {
#endif

/** Of a call that the shared library exports. */
#ifndef SRM_API
#if defined(__GNUC__)
#define SRM_API __attribute__((visibility("default")))
#else
#define SRM_API
#endif
#endif

/** Of a call whose code is not to be passed over. */
#if defined(__GNUC__)
#define SRM_CHECKED __attribute__((warn_unused_result))
#else
#define SRM_CHECKED
#endif

/** @name Version of this header. srm_version() has that of the library that is linked.
 * @{ */
#define SRM_VERSION_MAJOR 0 /**< That of the soname, libsrm.so.0. */
#define SRM_VERSION_MINOR 1 /**< It rises where something is added. */
#define SRM_VERSION_PATCH 0 /**< It rises where nothing is added. */
#define SRM_VERSION (SRM_VERSION_MAJOR * 10000 + SRM_VERSION_MINOR * 100 + SRM_VERSION_PATCH) /**< The three as one number. */
/** @} */

/** @name Limits of a session, which the format of datagrams fixes
 * @{ */
#define SRM_MEMBERS_MAX 32                      /**< Members of a session, numbered from 0. */
#define SRM_SLOTS 8                             /**< Pages that a member holds, in slots 0 to 7. */
#define SRM_BODY_MAX 1024                       /**< Bytes of a stroke. */
#define SRM_STROKES_MAX 65536                   /**< Strokes of one member on one page, numbered from 1. */
#define SRM_DATAGRAM_MAX 6398                   /**< Bytes of a datagram. All but session messages have at most 1,051. */
#define SRM_MOMENT_MAX UINT64_C(281474976710656) /**< The greatest moment, in microseconds: 2^48. */
#define SRM_DISTANCE_MAX UINT64_C(10000000)     /**< The longest distance to a member, in microseconds. */
#define SRM_NEVER UINT64_MAX                    /**< In place of a moment: there is none. */
/** @} */

/** @name Ranges of settings
 * @{ */
#define SRM_RATE_MIN 1         /**< Bytes a second, at least. */
#define SRM_RATE_MAX 100000000 /**< Bytes a second, at most. */
#define SRM_DEPTH_MIN 1051     /**< Bytes of the token bucket, at least: those of the longest datagram but session messages. */
#define SRM_DEPTH_MAX 1000000  /**< Bytes of the token bucket, at most. */
#define SRM_WAIT_MAX 16        /**< The greatest of the four timer settings. */
#define SRM_DISTANCE_MIN 1     /**< The least floor under distances, which is none. */
/** @} */

/** @name Limits of rooms and guards
 * @{ */
#define SRM_ROOM_TEXT_MAX 65536 /**< Bytes of a room's text. */
#define SRM_NAME_MAX 160        /**< Bytes of a member's name: 40 characters. */
#define SRM_FAULT_TEXT_MAX 256  /**< Bytes of ::srm_room_fault::text, with the 0 at its end. */
#define SRM_KEY_MIN 16          /**< Bytes of a key, at least. */
#define SRM_KEY_MAX 1024        /**< Bytes of a key, at most. */
#define SRM_SEAL_BYTES 25       /**< Bytes that a guard puts behind a datagram. */
#define SRM_SEALED_MAX 6423     /**< Bytes of a datagram that is sealed. */
/** @} */

/** What a call returns. 1 to 6 are the agent's faults, by their numbers; from 16 on they are of this interface. */
enum srm_code {
    SRM_OK = 0,                /**< Done. */
    SRM_ERROR_LEAVING = 1,     /**< The member is leaving: it draws nothing new. */
    SRM_ERROR_GONE = 2,        /**< The member has left. */
    SRM_ERROR_PAGE_LIMIT = 3,  /**< The page is not in the table, and the table has no slot for another. */
    SRM_ERROR_STREAM_FULL = 4, /**< The member drew ::SRM_STROKES_MAX strokes on the page. */
    SRM_ERROR_BODY_LONG = 5,   /**< The stroke has more than ::SRM_BODY_MAX bytes. */
    SRM_ERROR_MEMORY = 6,      /**< Out of memory. */
    SRM_ERROR_NULL = 16,       /**< A pointer that is needed is NULL. */
    SRM_ERROR_MOMENT = 17,     /**< A moment is past ::SRM_MOMENT_MAX. */
    SRM_ERROR_SLOT = 18,       /**< A slot is past 7. */
    SRM_ERROR_CONFIG = 19,     /**< A setting is out of its range, or `me` is not below `members`. */
    SRM_ERROR_BUFFER = 20,     /**< The buffer is too short. */
    SRM_ERROR_EMPTY = 21,      /**< There is no agent, room or guard: its memory is all zeroes, which it never is between new and free. */
    SRM_ERROR_PAGE = 22,       /**< A page's creator is past 31, or this member has no page left to begin. */
    SRM_NOTHING = 23,          /**< No error: there is nothing (more) to be taken. */
    SRM_ERROR_FULL = 24,       /**< The memory of an agent, room or guard is in use. No call of this header leads to it. */
    SRM_ERROR_LENGTH = 25,     /**< A length is past PTRDIFF_MAX. */
    SRM_ERROR_MEMBER = 26,     /**< A member is past 31, or the room has no such member. */
    SRM_ERROR_FAULT = 27,      /**< The text is no room: ::srm_room_fault says why. */
    SRM_ERROR_KEY = 28,        /**< The key has fewer than ::SRM_KEY_MIN bytes, or more than ::SRM_KEY_MAX. */
    SRM_ERROR_UNTAGGED = 29,   /**< Nobody with the key sealed the bytes for this member. */
    SRM_ERROR_OLDER = 30,      /**< Nobody did, but an older version tagged them by this key. */
    SRM_ERROR_AGAIN = 31,      /**< The bytes came before, or so late that this can't be told. */
    SRM_ERROR_COUNTERS = 32    /**< All counters to the member were used. */
};

/** Returns ::SRM_VERSION of the library. */
SRM_API int srm_version(void);

/** Returns the version of the library as text, as `0.1.0`. It is static. */
SRM_API const char *srm_version_string(void);

/**
 * Says in one line of English what a code means.
 *
 * @param code  one of ::srm_code; of any other number the text says so
 * @return the text, which is static; never NULL
 */
SRM_API const char *srm_strerror(int code);

/** A page: who began it, and its number among that member's pages. */
typedef struct srm_page {
    uint8_t creator; /**< Who began it, 0 to 31. */
    uint16_t number; /**< Its number among that member's pages, from 0. */
} srm_page;

/** The page that each member has from the start, in slot 0. */
#ifdef __cplusplus
#define SRM_FIRST_PAGE (srm_page{0, 0})
#else
#define SRM_FIRST_PAGE ((srm_page){0, 0})
#endif

/** The name of a stroke, which is never given to another. */
typedef struct srm_name {
    srm_page page;   /**< The page that it was drawn on. */
    uint8_t source;  /**< Who drew it, 0 to 31. */
    uint32_t number; /**< Its number among the source's strokes on the page, from 1. */
} srm_name;

/**
 * The settings of a member. Fill it with srm_config_default(), then set `me`, `members` and `session`, and what else is to differ.
 *
 * A later version may add fields at the end. `size` says which fields the caller's header has: the library takes defaults for
 * those behind it.
 */
typedef struct srm_config {
    uint32_t size;           /**< sizeof(srm_config), as srm_config_default() writes it. */
    uint32_t session;        /**< The session's number, which all its datagrams carry. */
    uint32_t rate;           /**< Bytes a second that may be sent, ::SRM_RATE_MIN to ::SRM_RATE_MAX; by default 8,000. */
    uint32_t depth;          /**< Bytes of the token bucket, ::SRM_DEPTH_MIN to ::SRM_DEPTH_MAX; by default 4,204. */
    uint8_t me;              /**< This member, below `members`; by default 0. One that is restarted needs a number that nobody had. */
    uint8_t members;         /**< How many members there are, 1 to ::SRM_MEMBERS_MAX; by default 1. */
    uint8_t c1;              /**< A request waits at least so many distances, 0 to ::SRM_WAIT_MAX; by default 2. */
    uint8_t c2;              /**< And so many more at most, 0 to ::SRM_WAIT_MAX; by default 2. */
    uint8_t d1;              /**< A repair waits at least so many distances, 0 to ::SRM_WAIT_MAX; by default 1. */
    uint8_t d2;              /**< And so many more at most, 0 to ::SRM_WAIT_MAX; by default 1. */
    uint64_t least_distance; /**< A distance to another member counts as at least so many microseconds, ::SRM_DISTANCE_MIN to
                                  ::SRM_DISTANCE_MAX; by default 1, which is no floor. 5,000 suits members on one machine. */
} srm_config;

/** The size of an srm_config that ends before `least_distance`. `size` is this or sizeof(srm_config). */
#define SRM_CONFIG_SIZE_MIN 24

/**
 * Writes the defaults: member 0 of 1 in session 0. srm_config_default() calls it with the size that the caller's header has.
 *
 * @param[out] config  the settings; NULL is passed over
 * @param size         bytes of `*config`; fewer than ::SRM_CONFIG_SIZE_MIN are passed over. `config->size` becomes how many of them the library
 *                     knows, and bytes behind those become 0
 */
SRM_API void srm_config_init(srm_config *config, size_t size);

/** Writes the defaults into an srm_config, by srm_config_init(). */
#define srm_config_default(config) srm_config_init((config), sizeof(srm_config))

/** One member of a session. Its memory belongs to the library. */
typedef struct srm_agent srm_agent;

/**
 * Makes an agent at a moment, and writes it to `*agent`; on an error that is NULL. It shows the first page, which it has in slot 0.
 *
 * Members choose their waits by their seeds. Give each another, or they ask and answer all at once.
 *
 * @param[out] agent  the agent, which the caller ends with srm_agent_free()
 * @param config      the settings, which are copied
 * @param seed        any number
 * @param now         the moment, in microseconds
 * @return ::SRM_OK; ::SRM_ERROR_NULL where `agent` or `config` is NULL; ::SRM_ERROR_CONFIG where `size`, or a setting, is out of its
 *         range, or `me` is not below `members`; ::SRM_ERROR_MOMENT; ::SRM_ERROR_MEMORY
 */
SRM_CHECKED SRM_API int srm_agent_new(srm_agent **agent, const srm_config *config, uint64_t seed, uint64_t now);

/**
 * Ends an agent, whatever its state, and frees all that it holds. It sends nothing: to take leave of the others call srm_agent_leave() and tick
 * until srm_agent_state() is ::SRM_GONE.
 *
 * @param agent  the agent, which no call may take any more; NULL is passed over
 */
SRM_API void srm_agent_free(srm_agent *agent);

/**
 * Draws a stroke on a page, which enters the page table if it is not there. A later tick sends it, when the rate lets it go.
 *
 * @param agent      the agent
 * @param page       the page
 * @param body       the stroke's bytes, which are copied; may be NULL where `length` is 0
 * @param length     how many there are, at most ::SRM_BODY_MAX
 * @param now        the moment, in microseconds
 * @param[out] name  the stroke's name; may be NULL
 * @return ::SRM_OK, or the first of these that holds: ::SRM_ERROR_NULL; ::SRM_ERROR_LENGTH; ::SRM_ERROR_MOMENT; ::SRM_ERROR_PAGE where the
 *         page's creator is past 31; ::SRM_ERROR_EMPTY; ::SRM_ERROR_GONE; ::SRM_ERROR_LEAVING; ::SRM_ERROR_BODY_LONG; ::SRM_ERROR_PAGE_LIMIT;
 *         ::SRM_ERROR_STREAM_FULL; ::SRM_ERROR_MEMORY, which may also come in place of any of the five before it
 */
SRM_CHECKED SRM_API int srm_agent_draw(srm_agent *agent, srm_page page, const void *body, size_t length, uint64_t now, srm_name *name);

/**
 * Says whether a stroke, drawn at this moment, would have to wait for no other: nothing waits that goes before it, or the bucket covers all of
 * that and the stroke. It does not say whether the draw is refused.
 *
 * @param agent   the agent
 * @param length  bytes of the stroke; more than ::SRM_BODY_MAX count as so many
 * @param now     the moment, in microseconds; here it may be any
 * @return whether it would wait for no other; false where there is no agent
 */
SRM_API bool srm_agent_admits(srm_agent *agent, size_t length, uint64_t now);

/**
 * Says from which moment on srm_agent_admits() is true, if no other call comes before.
 *
 * @param agent   the agent
 * @param length  bytes of the stroke; more than ::SRM_BODY_MAX count as so many
 * @return the moment, in microseconds, which may be past ::SRM_MOMENT_MAX; ::SRM_NEVER if something else has to go first:
 *         srm_agent_next_due() tells when that goes; or if there is no agent
 */
SRM_API uint64_t srm_agent_admits_from(srm_agent *agent, size_t length);

/**
 * Writes the page of this member's own that it would begin next. The page enters the table when it is drawn on or shown.
 *
 * @param agent      the agent
 * @param[out] page  the page
 * @return ::SRM_OK; ::SRM_ERROR_NULL; ::SRM_ERROR_EMPTY; ::SRM_ERROR_PAGE where the table is full or the member began 65,536 pages
 */
SRM_CHECKED SRM_API int srm_agent_new_page(srm_agent *agent, srm_page *page);

/**
 * Shows a page, which enters the page table if it is not there. Repairs and requests for the page shown go first.
 *
 * @param agent  the agent
 * @param page   the page
 * @param now    the moment, in microseconds
 * @return ::SRM_OK, or the first of these that holds: ::SRM_ERROR_NULL; ::SRM_ERROR_MOMENT; ::SRM_ERROR_PAGE where the page's creator is past
 *         31; ::SRM_ERROR_EMPTY; ::SRM_ERROR_GONE; ::SRM_ERROR_PAGE_LIMIT; ::SRM_ERROR_MEMORY, which this version never returns: showing takes no memory
 */
SRM_CHECKED SRM_API int srm_agent_show(srm_agent *agent, srm_page page, uint64_t now);

/**
 * Begins to leave: the member draws nothing new, and once all that it drew was sent, a tick sends its farewell and it is gone.
 *
 * @param agent  the agent
 * @param now    the moment, in microseconds
 * @return ::SRM_OK, or the first of these that holds: ::SRM_ERROR_NULL; ::SRM_ERROR_MOMENT; ::SRM_ERROR_EMPTY; ::SRM_ERROR_GONE;
 *         ::SRM_ERROR_LEAVING
 */
SRM_CHECKED SRM_API int srm_agent_leave(srm_agent *agent, uint64_t now);

/** Why a datagram was ignored. Nothing but the last moment changed then. */
enum srm_cause {
    SRM_TAKEN = 0,              /**< It was taken. */
    SRM_CAUSE_OWN = 1,          /**< This member sent it. */
    SRM_CAUSE_GONE = 2,         /**< This member has left. */
    SRM_CAUSE_CONFLICT = 3,     /**< It has another stroke under a name that is held. */
    SRM_CAUSE_PAGE_LIMIT = 4,   /**< It names more pages than the table has slots left. */
    SRM_CAUSE_BEYOND_FINAL = 5, /**< It names a stroke past the last of a member that left, or of this member's own. */
    SRM_CAUSE_DECODE = 6,       /**< It is no datagram of this session. */
    SRM_CAUSE_STRANGER = 7      /**< Its sender, or a source that it names, is not below `members`. */
};

/** What became of a datagram. */
typedef struct srm_heard {
    size_t timers; /**< How many timers it set. */
    uint8_t cause; /**< One of ::srm_cause. */
    uint8_t fault; /**< Where `cause` is ::SRM_CAUSE_DECODE, what is wrong with the bytes, 1 to 11 as in docs/PROTOCOL.md; else 0. */
} srm_heard;

/**
 * Hears bytes that came from the network, whatever they are.
 *
 * @param agent       the agent
 * @param bytes       a datagram, which may be any bytes; may be NULL where `length` is 0
 * @param length      how many there are
 * @param now         the moment, in microseconds
 * @param[out] heard  what became of it; may be NULL
 * @return ::SRM_OK, also where it is ignored; ::SRM_ERROR_NULL; ::SRM_ERROR_LENGTH; ::SRM_ERROR_MOMENT; ::SRM_ERROR_EMPTY; ::SRM_ERROR_MEMORY, which
 *         only a datagram of this session can meet
 */
SRM_CHECKED SRM_API int srm_agent_hear(srm_agent *agent, const void *bytes, size_t length, uint64_t now, srm_heard *heard);

/** Whether a member takes part. It never goes back. */
enum srm_state {
    SRM_ACTIVE = 1,  /**< It draws, asks and repairs. */
    SRM_LEAVING = 2, /**< It draws nothing new, but asks, repairs and sends what waits. */
    SRM_GONE = 3     /**< It sent its farewell. It hears and sends nothing. */
};

/** What a tick did. */
typedef struct srm_ticked {
    size_t requests;  /**< Strokes that it asked for, which srm_agent_next_request() names. */
    size_t repairs;   /**< Strokes that it repaired, which srm_agent_next_repair() names. */
    size_t datagrams; /**< Datagrams to send, which srm_agent_next_datagram() copies. */
    uint8_t state;    /**< One of ::srm_state, after the tick. */
} srm_ticked;

/**
 * Does what is due. A tick that is early does nothing, and one that is late does all that is due by then.
 *
 * What an earlier tick left and was not taken is dropped, as if lost on its way: take all datagrams before the next tick. Where this tick
 * is refused, it stays.
 *
 * @param agent        the agent
 * @param now          the moment, in microseconds
 * @param[out] ticked  what it did; may be NULL
 * @return ::SRM_OK; ::SRM_ERROR_NULL; ::SRM_ERROR_MOMENT; ::SRM_ERROR_EMPTY; ::SRM_ERROR_MEMORY, which only a tick with something to do can meet
 */
SRM_CHECKED SRM_API int srm_agent_tick(srm_agent *agent, uint64_t now, srm_ticked *ticked);

/**
 * Takes the next datagram that the last tick left to be sent, and copies it to the front of `buffer`. Send it to all other members, once.
 *
 * Where it does not fit, nothing is copied, it stays the next, and `*length` says how many bytes it takes. A buffer of
 * ::SRM_DATAGRAM_MAX bytes always does.
 *
 * @param agent        the agent
 * @param[out] buffer  where it goes; may be NULL where `size` is 0
 * @param size         bytes of `buffer`
 * @param[out] length  how many bytes the datagram has
 * @return ::SRM_OK; ::SRM_ERROR_NULL; ::SRM_ERROR_EMPTY; ::SRM_NOTHING; ::SRM_ERROR_BUFFER, and then `*length` is written too
 */
SRM_CHECKED SRM_API int srm_agent_next_datagram(srm_agent *agent, void *buffer, size_t size, size_t *length);

/**
 * Takes the next name that the last tick asked for, in order; for logs alone.
 *
 * @param agent      the agent
 * @param[out] name  the name
 * @return ::SRM_OK; ::SRM_ERROR_NULL; ::SRM_ERROR_EMPTY; ::SRM_NOTHING
 */
SRM_CHECKED SRM_API int srm_agent_next_request(srm_agent *agent, srm_name *name);

/**
 * Takes the next name that the last tick repaired, in order; for logs alone.
 *
 * @param agent      the agent
 * @param[out] name  the name
 * @return ::SRM_OK; ::SRM_ERROR_NULL; ::SRM_ERROR_EMPTY; ::SRM_NOTHING
 */
SRM_CHECKED SRM_API int srm_agent_next_repair(srm_agent *agent, srm_name *name);

/**
 * Says when a tick next does something. Ask again after each other call, since any may change it.
 *
 * @param agent  the agent
 * @return the moment, in microseconds, which may be past ::SRM_MOMENT_MAX: then no tick comes to it; ::SRM_NEVER where the member is gone, or there is
 *         no agent
 */
SRM_API uint64_t srm_agent_next_due(srm_agent *agent);

/**
 * Says whether the member takes part.
 *
 * @param agent  the agent
 * @return one of ::srm_state; 0 where there is no agent
 */
SRM_API int srm_agent_state(srm_agent *agent);

/**
 * Writes the one-way distance to a member in microseconds: 0 to this member itself, to another from the floor to ::SRM_DISTANCE_MAX.
 * Timers wait for multiples of it. Before an echo from a member was heard it is 100,000, or the floor where that is more.
 *
 * @param agent          the agent
 * @param member         0 to 31; it need not be below `members`
 * @param[out] distance  the distance, in microseconds
 * @return ::SRM_OK; ::SRM_ERROR_NULL; ::SRM_ERROR_MEMBER where `member` is past 31; ::SRM_ERROR_EMPTY
 */
SRM_CHECKED SRM_API int srm_agent_distance(srm_agent *agent, unsigned member, uint64_t *distance);

/**
 * Writes the greatest number that the member knows to exist of a source's strokes on a page, or 0.
 *
 * @param agent       the agent
 * @param page        the page; it need not be in the table
 * @param source      0 to 31; it need not be below `members`
 * @param[out] known  the number, at most ::SRM_STROKES_MAX
 * @return ::SRM_OK, or the first of these that holds: ::SRM_ERROR_NULL; ::SRM_ERROR_PAGE where the page's creator is past 31; ::SRM_ERROR_MEMBER
 *         where `source` is past 31; ::SRM_ERROR_EMPTY
 */
SRM_CHECKED SRM_API int srm_agent_known(srm_agent *agent, srm_page page, unsigned source, uint32_t *known);

/**
 * Writes how many of a source's strokes on a page are missing: the member knows that they exist, and does not hold them.
 *
 * @param agent       the agent
 * @param page        the page; it need not be in the table
 * @param source      0 to 31; it need not be below `members`
 * @param[out] count  how many, at most ::SRM_STROKES_MAX
 * @return ::SRM_OK, or the first of these that holds: ::SRM_ERROR_NULL; ::SRM_ERROR_PAGE where the page's creator is past 31; ::SRM_ERROR_MEMBER
 *         where `source` is past 31; ::SRM_ERROR_EMPTY
 */
SRM_CHECKED SRM_API int srm_agent_missing(srm_agent *agent, srm_page page, unsigned source, uint32_t *count);

/**
 * Writes the number of the first missing stroke of a source on a page above a number. Begin with 0 and go on with what it wrote, to find all.
 *
 * @param agent        the agent
 * @param page         the page; it need not be in the table
 * @param source       0 to 31; it need not be below `members`
 * @param after        any number
 * @param[out] number  the number of the stroke, above `after`
 * @return ::SRM_OK, or the first of these that holds: ::SRM_ERROR_NULL; ::SRM_ERROR_PAGE where the page's creator is past 31; ::SRM_ERROR_MEMBER
 *         where `source` is past 31; ::SRM_ERROR_EMPTY; ::SRM_NOTHING where none is missing above `after`
 */
SRM_CHECKED SRM_API int srm_agent_next_missing(srm_agent *agent, srm_page page, unsigned source, uint32_t after, uint32_t *number);

/** What a member misses, when its timers expire, what waits to be sent, and whether it takes part. */
typedef struct srm_outstanding {
    uint64_t next_request_at; /**< When the first request timer expires, in microseconds; ::SRM_NEVER where none runs, and so nothing is missing. */
    uint64_t next_repair_at;  /**< When the first repair timer expires, in microseconds; ::SRM_NEVER where none runs. */
    size_t waiting_shown;     /**< Requests and repairs for the page shown that wait until the rate lets them go. */
    size_t waiting_new;       /**< The member's strokes that wait. */
    size_t waiting_other;     /**< Requests and repairs for other pages that wait. */
    uint32_t missing;         /**< Strokes that are missing, of all sources and on all pages. */
    uint8_t state;            /**< One of ::srm_state. */
} srm_outstanding;

/**
 * Writes what is outstanding. A member that stays for others may go once no repair timer runs and nothing waits.
 *
 * @param agent             the agent
 * @param[out] outstanding  what is outstanding
 * @return ::SRM_OK; ::SRM_ERROR_NULL; ::SRM_ERROR_EMPTY
 */
SRM_CHECKED SRM_API int srm_agent_outstanding(srm_agent *agent, srm_outstanding *outstanding);

/** What a message of a page's feed is. */
enum srm_message_kind {
    SRM_MESSAGE_OPEN = 1, /**< `name.page` is the slot's page. It comes first. */
    SRM_MESSAGE_DRAW = 2, /**< The next stroke of its source: `name`, `stamp`, `length`, `body`. */
    SRM_MESSAGE_LEFT = 3, /**< `name.source` left, and all that it drew on the page was given. */
    SRM_MESSAGE_CLOSE = 4 /**< Nothing more comes. */
};

/** A message of a page's feed. Fields that its kind does not speak of are 0; of `body` only the first `length` bytes are written. */
typedef struct srm_message {
    uint64_t stamp; /**< The moment at which the stroke was drawn, by its source's clock. */
    size_t length;  /**< Bytes of the stroke. */
    srm_name name;  /**< The page, the stroke or the source that it speaks of. */
    uint8_t kind;   /**< One of ::srm_message_kind. */
    uint8_t body[SRM_BODY_MAX]; /**< The stroke's bytes. */
} srm_message;

/**
 * Takes the next message of a slot. Of each source the strokes come in order, each once.
 *
 * @param agent         the agent
 * @param slot          0 to 7
 * @param[out] message  the message
 * @return ::SRM_OK; ::SRM_ERROR_NULL; ::SRM_ERROR_SLOT; ::SRM_ERROR_EMPTY; ::SRM_NOTHING; ::SRM_ERROR_MEMORY, and then the message is still to come;
 *         this version never returns it, as giving takes no memory
 */
SRM_CHECKED SRM_API int srm_agent_give(srm_agent *agent, unsigned slot, srm_message *message);

/** What is wrong with a text that is no room. */
enum srm_room_fault_kind {
    SRM_FAULT_NO_TEXT = 1,        /**< It is no UTF-8, or has more than ::SRM_ROOM_TEXT_MAX bytes. */
    SRM_FAULT_NOT_TOML = 2,       /**< It is no TOML. */
    SRM_FAULT_LACKS = 3,          /**< A key lacks. */
    SRM_FAULT_WRONG = 4,          /**< What stands at a key is not of its kind, or out of its range. */
    SRM_FAULT_KEY_LENGTH = 5,     /**< The key of the session has fewer than ::SRM_KEY_MIN bytes, or more than ::SRM_KEY_MAX. */
    SRM_FAULT_NO_MEMBER = 6,      /**< There is no member. */
    SRM_FAULT_TOO_MANY = 7,       /**< There are more than ::SRM_MEMBERS_MAX members. */
    SRM_FAULT_NAME = 8,           /**< A name is not 1 to 40 characters without space, control character or `=`, or is a number. */
    SRM_FAULT_ADDRESS = 9,        /**< An address is not `IPv4:port`, `[IPv6]:port` or `host:port`, with a port from 1 to 65,535. */
    SRM_FAULT_NAME_TWICE = 10,    /**< Two members have one name. */
    SRM_FAULT_ADDRESS_TWICE = 11, /**< Two members have one address. */
    SRM_FAULT_UNKNOWN = 12        /**< There is a key that is not known. */
};

/** The first fault of a text that is no room. */
typedef struct srm_room_fault {
    size_t line;   /**< The line that it is in, from 1; 0 where none shows it. */
    size_t length; /**< Bytes of `text`, without the 0 at its end. */
    uint8_t kind;  /**< One of ::srm_room_fault_kind. */
    char text[SRM_FAULT_TEXT_MAX]; /**< What is wrong and what to write instead, in one line of English that ends with a 0. */
} srm_room_fault;

/** What the members of a session have in common: the session, the key, names and addresses, and settings. Its memory belongs to the library. */
typedef struct srm_room srm_room;

/**
 * Reads a room from TOML in UTF-8, as `srm room new` writes it, and writes it to `*room`; on an error that is NULL.
 *
 * @param[out] room   the room, which the caller ends with srm_room_free()
 * @param text        the text; may be NULL where `length` is 0
 * @param length      how many bytes it has
 * @param[out] fault  where the text is no room, what is wrong with it; may be NULL
 * @return ::SRM_OK; ::SRM_ERROR_NULL; ::SRM_ERROR_FAULT, and then `*fault` is written; ::SRM_ERROR_MEMORY
 */
SRM_CHECKED SRM_API int srm_room_read(srm_room **room, const void *text, size_t length, srm_room_fault *fault);

/**
 * Ends a room, and frees all that it holds.
 *
 * @param room  the room, which no call may take any more; NULL is passed over
 */
SRM_API void srm_room_free(srm_room *room);

/**
 * Says how many members a room has.
 *
 * @param room  the room
 * @return how many, 1 to ::SRM_MEMBERS_MAX; 0 where there is no room
 */
SRM_API unsigned srm_room_members(srm_room *room);

/**
 * Writes the place of a member, by its name or by the place itself as digits. A member's place is its `me`.
 *
 * @param room        the room
 * @param who         a text that ends with a 0: a name, which is never a number, or a place, from 0
 * @param[out] place  the place, below srm_room_members()
 * @return ::SRM_OK; ::SRM_ERROR_NULL; ::SRM_ERROR_EMPTY; ::SRM_ERROR_MEMBER where the room has no such member
 */
SRM_CHECKED SRM_API int srm_room_find(srm_room *room, const char *who, unsigned *place);

/**
 * Copies the name of a member to the front of `buffer`, with a 0 at its end.
 *
 * Where it does not fit, nothing is copied, and `*length` says how many bytes it has without the 0. ::SRM_NAME_MAX and one more always do.
 *
 * @param room         the room
 * @param place        the member's place, from 0
 * @param[out] buffer  where it goes, in UTF-8; may be NULL where `size` is 0
 * @param size         bytes of `buffer`
 * @param[out] length  how many bytes the name has, without the 0
 * @return ::SRM_OK; ::SRM_ERROR_NULL; ::SRM_ERROR_EMPTY; ::SRM_ERROR_MEMBER where the room has no such member; ::SRM_ERROR_BUFFER, and then
 *         `*length` is written too
 */
SRM_CHECKED SRM_API int srm_room_name(srm_room *room, unsigned place, char *buffer, size_t size, size_t *length);

/**
 * Copies the address of a member to the front of `buffer`, with a 0 at its end: `IPv4:port`, `[IPv6]:port` or `host:port`, as the room has it. The library
 * resolves no host.
 *
 * Where it does not fit, nothing is copied, and `*length` says how many bytes it has without the 0.
 *
 * @param room         the room
 * @param place        the member's place, from 0
 * @param[out] buffer  where it goes, in ASCII; may be NULL where `size` is 0
 * @param size         bytes of `buffer`
 * @param[out] length  how many bytes the address has, without the 0
 * @return ::SRM_OK; ::SRM_ERROR_NULL; ::SRM_ERROR_EMPTY; ::SRM_ERROR_MEMBER where the room has no such member; ::SRM_ERROR_BUFFER, and then
 *         `*length` is written too
 */
SRM_CHECKED SRM_API int srm_room_address(srm_room *room, unsigned place, char *buffer, size_t size, size_t *length);

/**
 * Writes the settings of a member's agent: its place, and the session, the number of members and the settings of the room. srm_agent_new() never refuses them.
 *
 * @param room            the room
 * @param me              the member's place, from 0
 * @param[in,out] config  the settings, which srm_config_default() filled before
 * @return ::SRM_OK; ::SRM_ERROR_NULL; ::SRM_ERROR_CONFIG where `size` is none that this library writes; ::SRM_ERROR_EMPTY; ::SRM_ERROR_MEMBER where the room has
 *         no such member
 */
SRM_CHECKED SRM_API int srm_room_config(srm_room *room, unsigned me, srm_config *config);

/**
 * Says how long a member of a room stays, after its user is done, for others that miss what it holds: until nobody asked for anything for so long.
 *
 * @param room  the room
 * @return microseconds, at most 30,000,000; 0 where there is no room
 */
SRM_API uint32_t srm_room_linger(srm_room *room);

/**
 * Says how many strokes a member of a room may miss at once. The library sets no such bound: who wants one looks at ::srm_outstanding::missing.
 *
 * @param room  the room
 * @return how many, 1 to 16,777,216; 0 where there is no room
 */
SRM_API uint32_t srm_room_most_missing(srm_room *room);

/**
 * What seals the datagrams that a member sends, and opens what comes, by a key that all members share. Its memory belongs to the library.
 *
 * Behind each datagram to a member stand its sender, a counter and a tag of all that. So a guard opens only what somebody with the key sealed for its member, and each such
 * datagram once. A key hides nothing, and does not tell one member from another: a member may lie.
 */
typedef struct srm_guard srm_guard;

/**
 * Makes a guard by a key, and writes it to `*guard`; on an error that is NULL. It takes some 70 KiB.
 *
 * Its counters begin at `start`, which must be above all that this member used under this key before, or others drop what it sends: pass the time of day.
 *
 * @param[out] guard  the guard, which the caller ends with srm_guard_free()
 * @param key         the key, which is copied; best 32 random bytes. May be NULL where `length` is 0
 * @param length      how many bytes it has, ::SRM_KEY_MIN to ::SRM_KEY_MAX
 * @param me          this member, 0 to 31
 * @param start       microseconds since 1970
 * @return ::SRM_OK; ::SRM_ERROR_NULL; ::SRM_ERROR_MEMBER where `me` is past 31; ::SRM_ERROR_KEY; ::SRM_ERROR_MEMORY
 */
SRM_CHECKED SRM_API int srm_guard_new(srm_guard **guard, const void *key, size_t length, unsigned me, uint64_t start);

/**
 * Makes a guard by the key of a room, as srm_guard_new() does, and writes it to `*guard`; on an error that is NULL.
 *
 * @param[out] guard  the guard, which the caller ends with srm_guard_free()
 * @param room        the room
 * @param me          this member's place, from 0
 * @param start       microseconds since 1970
 * @return ::SRM_OK; ::SRM_ERROR_NULL; ::SRM_ERROR_EMPTY; ::SRM_ERROR_MEMBER where the room has no such member; ::SRM_ERROR_MEMORY
 */
SRM_CHECKED SRM_API int srm_room_guard(srm_guard **guard, srm_room *room, unsigned me, uint64_t start);

/**
 * Ends a guard, and frees all that it holds.
 *
 * @param guard  the guard, which no call may take any more; NULL is passed over
 */
SRM_API void srm_guard_free(srm_guard *guard);

/**
 * Copies a datagram to the front of `buffer` and seals it for a member: ::SRM_SEAL_BYTES stand behind it. Seal a datagram anew for each member, and for each time that it is sent.
 *
 * Where it does not fit, nothing is copied, and `*sealed` says how many bytes it takes. A buffer of ::SRM_SEALED_MAX bytes always does for what
 * srm_agent_next_datagram() copies.
 *
 * @param guard        the guard
 * @param to           the member that it goes to, 0 to 31
 * @param datagram     the datagram; may be NULL where `length` is 0
 * @param length       how many bytes it has
 * @param[out] buffer  where it goes; may be NULL where `size` is 0. It must not overlap the datagram
 * @param size         bytes of `buffer`
 * @param[out] sealed  how many bytes it has, sealed
 * @return ::SRM_OK; ::SRM_ERROR_NULL; ::SRM_ERROR_LENGTH; ::SRM_ERROR_MEMBER where `to` is past 31; ::SRM_ERROR_EMPTY; ::SRM_ERROR_BUFFER, and then `*sealed` is
 *         written too; ::SRM_ERROR_COUNTERS
 */
SRM_CHECKED SRM_API int srm_guard_seal(srm_guard *guard, unsigned to, const void *datagram, size_t length, void *buffer, size_t size, size_t *sealed);

/**
 * Opens bytes that came from the network, whatever they are. Hear the first `*opened` of them where it returns ::SRM_OK, and drop them else: that counts as lost.
 *
 * @param guard        the guard
 * @param bytes        what came; may be NULL where `length` is 0
 * @param length       how many there are
 * @param[out] opened  how many of them, from the front, are a datagram
 * @return ::SRM_OK; ::SRM_ERROR_NULL; ::SRM_ERROR_LENGTH; ::SRM_ERROR_EMPTY; ::SRM_ERROR_UNTAGGED; ::SRM_ERROR_OLDER; ::SRM_ERROR_AGAIN
 */
SRM_CHECKED SRM_API int srm_guard_open(srm_guard *guard, const void *bytes, size_t length, size_t *opened);

#ifdef __cplusplus
}
#endif

#endif /* SRM_H */
