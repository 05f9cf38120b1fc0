// SPDX-License-Identifier: Apache-2.0 OR MIT
/** @file
 * Publish-subscribe inside one program: the calls of the proved library iox2_pubsub for C11 and C++11 or later.
 * Messages are bytes, as many as each loan says, up to a limit that the domain is made with.
 *
 * The caller's obligations, all of them:
 *  - each pointer is valid for the call, aligned, not null (except where a call says so) and of its type; one that isn't
 *    const must not alias memory that anything else uses during the call; bytes that are read are initialised;
 *  - an iox2ps_domain_t starts as IOX2PS_DOMAIN_INIT, is changed by these functions alone, and isn't copied
 *    while it has a domain;
 *  - one call at a time works on a domain; threads that share one bring a lock, as is said below;
 *  - memory is the C library's, or that of functions that keep what iox2ps_allocator_t says; no call is made from a signal handler;
 *  - a pointer to a payload is used as the call that gives it says, and not longer.
 *
 * Handles need not be valid. Where the numbers of a port, a loan, a sample or a blocked send name nothing that
 * is live in the domain, the call returns IOX2PS_NOT_LIVE and changes nothing. So numbers may be copied, used
 * twice, kept too long or made up. Domains whose handles are to be told apart need service_ids of their own.
 *
 * What a call does to the domain, which code it returns, and the numbers, lengths and copies that it writes
 * are proved. What is said of each subscriber after a send, a retry, a giving up or a receive is proved of the library's
 * calls behind these (docs/CLAUSES.md). That payload pointers are right is tested, not proved: they lead to the bytes of their own message
 * and of no other, aligned as payload_alignment says, which stay there until the loan or the sample is consumed.
 * The same holds of pointers to texts.
 *
 * Threads. Nothing here starts a thread, takes a lock, waits, or keeps state outside of a domain. So threads may call
 * different domains at a time, and a domain may go from one thread to another. Threads that share one have a lock for it:
 *  - each call that takes the domain is made with the lock, also one that only asks: each has the domain for itself, and
 *    some write into its iox2ps_domain_t meanwhile. For the same reason no call takes a const domain: to a C compiler
 *    const would say that nothing is written there;
 *  - payloads need no lock. The bytes of a loan are its holder's from the call that lends it to the call that sends or
 *    discards it; those of a sample are read by whoever likes, by several threads at a time, from the call that receives
 *    it to the call that releases it. No other call touches them, but that one which copies a message reads it. A thread
 *    doesn't touch them once the ending call has begun, whichever thread makes that;
 *  - numbers may be handed on as any struct may: by the lock, a queue or a join;
 *  - to wait for a message (IOX2PS_NO_SAMPLE), for room (IOX2PS_BLOCKED), for an earlier send (IOX2PS_PUBLISHER_IS_BLOCKED) or for
 *    a loan (IOX2PS_LOAN_ERROR_EXCEEDS_MAX_LOANS, IOX2PS_LOAN_ERROR_OUT_OF_MEMORY), wait at a condition variable of the lock, and
 *    try again once another thread has made such a call:
 *     - for a message: a send, a retry or a giving up, also one that returned IOX2PS_BLOCKED, an update of a publisher's
 *       connections, or a publisher made or closed;
 *     - for room: a receive, or a subscriber or a channel closed. A release makes no room in a buffer;
 *     - for an earlier send: a retry or a giving up;
 *     - for a loan: a send, a discard, a release, a receive that copies, a retry, a giving up, or an update of the publisher's
 *       connections, which alone takes back what waited for a subscriber that was closed. iox2ps_brought_by() says what of
 *       that a call has brought by the code that it returned;
 *  - iox2ps_domain_destroy is called when no thread will call, read or write any more.
 * With the lock, all calls of a domain are one list, and what is proved of a list of calls is so of that one, in the order
 * in which the lock was taken. bindings/c/threads.c is such a program; iox2_pubsub_shared.hpp has a lock in it.
 *
 * Each call returns IOX2PS_OK, which is 0, or one of the codes listed at it. Where it says nothing
 * else, a call that doesn't return IOX2PS_OK changes neither the domain nor what its pointers point to,
 * and IOX2PS_NO_DOMAIN says that the iox2ps_domain_t has no domain. A compiler that can, warns where the code is dropped,
 * except that of calls that give something back.
 *
 * Settings. A struct of settings begins with struct_size, how many bytes it has in the header that the program was compiled
 * with. The call that fills the struct sets it, and a call that takes the struct refuses a size that the archive doesn't
 * know: so a later version may add fields at the end. A setting that is invalid has a code of its own, and where several
 * are invalid the first one is named, in the order of the fields.
 *
 * Fields whose names end in _ are for the library alone. */
#ifndef IOX2_PUBSUB_H
#define IOX2_PUBSUB_H

#include <stddef.h>
#include <stdint.h>

#ifdef __cplusplus
extern "C" {
#endif

#define IOX2PS_VERSION_MAJOR 0 /**< the first number of this header's version; that of the archive is iox2ps_version() */
#define IOX2PS_VERSION_MINOR 2 /**< the second number */
#define IOX2PS_VERSION_PATCH 2 /**< the third number */

/** The version as one number, which grows with each version. */
#define IOX2PS_VERSION (IOX2PS_VERSION_MAJOR * 65536 + IOX2PS_VERSION_MINOR * 256 + IOX2PS_VERSION_PATCH)

/** The version as words. */
#define IOX2PS_VERSION_TEXT IOX2PS_WORDS_OF_(IOX2PS_VERSION_MAJOR, IOX2PS_VERSION_MINOR, IOX2PS_VERSION_PATCH)
#define IOX2PS_WORDS_OF_(major, minor, patch) IOX2PS_WORDS_(major, minor, patch)
#define IOX2PS_WORDS_(major, minor, patch) #major "." #minor "." #patch

/** Stands at each function whose result has to be looked at: a compiler that can, warns where it is dropped. */
#ifndef IOX2PS_NODISCARD
#if defined(__cplusplus) && __cplusplus >= 201703L
#define IOX2PS_NODISCARD [[nodiscard]]
#elif defined(__GNUC__)
#define IOX2PS_NODISCARD __attribute__((warn_unused_result))
#else
#define IOX2PS_NODISCARD
#endif
#endif

/** What a call returns: one of iox2ps_status_e. */
typedef uint32_t iox2ps_status_t;

/** The codes of iox2ps_status_t. iox2ps_error_text() has a text for each. */
typedef enum iox2ps_status_e {
  IOX2PS_OK = 0, /**< the call did what it is to do */
  IOX2PS_NO_DOMAIN = 1, /**< none was made, or it was destroyed */
  IOX2PS_NOT_LIVE = 2, /**< the numbers name nothing that is live in this domain */
  IOX2PS_NO_SAMPLE = 3, /**< no message waits */
  IOX2PS_OUT_OF_MEMORY = 4, /**< there is no memory for the domain */
  IOX2PS_HAS_DOMAIN = 5, /**< there is one already */
  IOX2PS_BLOCKED = 6, /**< the send waits for a subscriber whose buffer is full */
  IOX2PS_PUBLISHER_IS_BLOCKED = 7, /**< an earlier send of the publisher waits, and nothing was done */
  IOX2PS_TOO_SMALL = 9, /**< the message is longer than the room for it */
  IOX2PS_LOAN_ERROR_OUT_OF_MEMORY = 10, /**< each slot is in use, or memory may not grow further */
  IOX2PS_LOAN_ERROR_EXCEEDS_MAX_LOANS = 11, /**< as many loans are out as the publisher may have */
  IOX2PS_LOAN_ERROR_EXCEEDS_MAX_LOAN_SIZE = 12, /**< longer than the publisher's greatest, and it doesn't grow */
  IOX2PS_LOAN_ERROR_INTERNAL_FAILURE = 13, /**< memory is to grow and can't, or no number is left for a message */
  IOX2PS_SEND_ERROR_CONNECTION_BROKEN_SINCE_SENDER_NO_LONGER_EXISTS = 20, /**< the loan's publisher is closed */
  IOX2PS_SEND_ERROR_CONNECTION_CORRUPTED = 21, /**< never returned */
  /** A handler let the send fail at a full buffer; others may have the message. */
  IOX2PS_SEND_ERROR_UNABLE_TO_DELIVER = 22,
  IOX2PS_SEND_ERROR_INTERNAL_ERROR = 23, /**< never returned */
  IOX2PS_SEND_ERROR_CONNECTION_INCOMPATIBLE_BUFFER_SIZE = 24, /**< never returned */
  /** As IOX2PS_CONNECTION_FAILURE_OUT_OF_MEMORY, and nobody has the message. */
  IOX2PS_SEND_ERROR_CONNECTION_OUT_OF_MEMORY = 25,
  IOX2PS_SEND_ERROR_CONNECTION_EXPIRED_BUFFER_FULL = 26, /**< never returned */
  IOX2PS_SEND_ERROR_CONNECTION_UNABLE_TO_MAP = 27, /**< never returned */
  /** Messages wait, but of each of their publishers as many samples are held as may be. */
  IOX2PS_RECEIVE_ERROR_EXCEEDS_MAX_BORROWS = 30,
  IOX2PS_RECEIVE_ERROR_CONNECTION_INCOMPATIBLE_BUFFER_SIZE = 34, /**< never returned */
  /** As IOX2PS_CONNECTION_FAILURE_OUT_OF_MEMORY, and nothing was received. */
  IOX2PS_RECEIVE_ERROR_CONNECTION_OUT_OF_MEMORY = 35,
  /** As IOX2PS_CONNECTION_FAILURE_EXPIRED_BUFFER_FULL, and nothing was received. */
  IOX2PS_RECEIVE_ERROR_CONNECTION_EXPIRED_BUFFER_FULL = 36,
  IOX2PS_RECEIVE_ERROR_CONNECTION_UNABLE_TO_MAP = 37, /**< never returned */
  IOX2PS_CONNECTION_FAILURE_INCOMPATIBLE_BUFFER_SIZE = 44, /**< never returned */
  /** Memory for a connection was refused, and the port is one that fails then. */
  IOX2PS_CONNECTION_FAILURE_OUT_OF_MEMORY = 45,
  /** The subscriber has samples of more closed publishers than there is room for. */
  IOX2PS_CONNECTION_FAILURE_EXPIRED_BUFFER_FULL = 46,
  IOX2PS_CONNECTION_FAILURE_UNABLE_TO_MAP = 47, /**< never returned */
  IOX2PS_PUBLISHER_CREATE_ERROR_EXCEEDS_MAX_SUPPORTED_PUBLISHERS = 50, /**< as many are open as the domain allows */
  /** Memory for its messages was refused, or there can't be that much. */
  IOX2PS_PUBLISHER_CREATE_ERROR_UNABLE_TO_CREATE_DATA_SEGMENT = 51,
  IOX2PS_PUBLISHER_CREATE_ERROR_FAILED_TO_DEPLOY_THREADSAFETY_POLICY = 52, /**< other memory was refused */
  IOX2PS_PUBLISHER_CREATE_ERROR_UNABLE_TO_CREATE_PORT_TAG = 53, /**< no id is left for a port */
  /** As many are there as the domain allows; a closed one counts until its last sample is released. */
  IOX2PS_SUBSCRIBER_CREATE_ERROR_EXCEEDS_MAX_SUPPORTED_SUBSCRIBERS = 60,
  IOX2PS_SUBSCRIBER_CREATE_ERROR_BUFFER_SIZE_EXCEEDS_MAX = 61, /**< a larger buffer than the domain allows */
  IOX2PS_SUBSCRIBER_CREATE_ERROR_FAILED_TO_DEPLOY_THREADSAFETY_POLICY = 62, /**< memory was refused */
  IOX2PS_SUBSCRIBER_CREATE_ERROR_UNABLE_TO_CREATE_PORT_TAG = 63, /**< no id is left for a port */
  IOX2PS_NO_SUCH_CHANNEL = 70, /**< a connection has no channel with this number */
  IOX2PS_NO_CONNECTION = 71, /**< the publisher has no connection to that subscriber */
  /** The struct wasn't filled by its call, or is of a header whose structs the archive doesn't know. */
  IOX2PS_INVALID_STRUCT_SIZE = 80,
  IOX2PS_INVALID_PAYLOAD_SIZE = 81,          /**< no multiple of payload_alignment */
  IOX2PS_INVALID_PAYLOAD_ALIGNMENT = 82,     /**< not 1, 2, 4, 8 or 16 */
  IOX2PS_INVALID_BACKPRESSURE_STRATEGY = 83, /**< no iox2ps_backpressure_strategy_e */
  IOX2PS_INVALID_BACKPRESSURE_HANDLER = 84,  /**< no iox2ps_backpressure_handler_e */
  IOX2PS_INVALID_DEGRADATION = 85,           /**< no iox2ps_degradation_e */
  IOX2PS_INVALID_ALLOCATION_STRATEGY = 86,   /**< no iox2ps_allocation_strategy_e */
  IOX2PS_INVALID_INITIAL_MAX_SLICE_LEN = 87, /**< no multiple of the domain's alignment, or 0 where memory may grow */
  IOX2PS_INVALID_RESERVED = 88,              /**< a field that is reserved isn't 0 */
  IOX2PS_WORST_CASE_TOO_LARGE = 89           /**< the number of slots doesn't fit size_t */
} iox2ps_status_e;

/** What a publisher does where a subscriber's buffer is full and the domain doesn't overflow. */
typedef enum iox2ps_backpressure_strategy_e {
  IOX2PS_RETRY_UNTIL_DELIVERED = 0, /**< the send is blocked: it is tried again, or given up */
  IOX2PS_DISCARD_DATA = 1 /**< the subscriber doesn't get the message */
} iox2ps_backpressure_strategy_e;

/** What always answers in place of the strategy. */
typedef enum iox2ps_backpressure_handler_e {
  IOX2PS_BACKPRESSURE_NONE = 0, /**< the strategy does */
  IOX2PS_BACKPRESSURE_FOLLOW_STRATEGY = 1, /**< the strategy does, by a handler that asks it */
  IOX2PS_BACKPRESSURE_RETRY = 2, /**< the send is blocked */
  IOX2PS_BACKPRESSURE_DISCARD_DATA = 3, /**< the subscriber doesn't get the message */
  IOX2PS_BACKPRESSURE_DISCARD_DATA_AND_FAIL = 4 /**< the same, and the send fails in the end */
} iox2ps_backpressure_handler_e;

/** What a port does where memory for a connection is refused. */
typedef enum iox2ps_degradation_e {
  IOX2PS_DEGRADATION_IGNORE = 0, /**< go on without it */
  IOX2PS_DEGRADATION_WARN = 1, /**< and the domain warns of it */
  IOX2PS_DEGRADATION_FAIL = 2 /**< let the call fail */
} iox2ps_degradation_e;

/** How a publisher's memory grows where a loan doesn't fit. */
typedef enum iox2ps_allocation_strategy_e {
  IOX2PS_ALLOCATION_STATIC = 0, /**< it doesn't: the loan is refused */
  IOX2PS_ALLOCATION_BEST_FIT = 1, /**< by slots for messages as long as the longest so far */
  IOX2PS_ALLOCATION_POWER_OF_TWO = 2 /**< by slots as long as the next power of two */
} iox2ps_allocation_strategy_e;

/** What a warning is of. iox2ps_error_text has a text for each. */
typedef enum iox2ps_warning_e {
  /** There is less room for closed publishers than samples that may be borrowed, which is taken in its place. */
  IOX2PS_WARNING_EXPIRED_BUFFER_RAISED = 100,
  IOX2PS_WARNING_PUBLISHER_PARTLY_CONNECTED = 101, /**< a publisher was made, and its first update of connections failed */
  /** A subscriber was made, and its first update of connections failed. */
  IOX2PS_WARNING_SUBSCRIBER_PARTLY_CONNECTED = 102,
  IOX2PS_WARNING_CONNECTION_NOT_MADE = 103, /**< memory for a connection was refused */
  /** Messages of a closed publisher were lost before they were received, since there was no room for its connection. */
  IOX2PS_WARNING_EXPIRED_DATA_DISCARDED = 104
} iox2ps_warning_e;

/** What a call may bring to threads that wait and share its domain; a sum of these. */
typedef enum iox2ps_brings_e {
  IOX2PS_BRINGS_MESSAGE = 1, /**< a message, to those who found IOX2PS_NO_SAMPLE */
  IOX2PS_BRINGS_ROOM = 2,    /**< room in a buffer, to a send that was IOX2PS_BLOCKED */
  IOX2PS_BRINGS_FREE = 4,    /**< the end of an earlier send, to those who found IOX2PS_PUBLISHER_IS_BLOCKED */
  IOX2PS_BRINGS_LOAN = 8     /**< a loan, to those who found IOX2PS_LOAN_ERROR_EXCEEDS_MAX_LOANS or .._OUT_OF_MEMORY */
} iox2ps_brings_e;

/** A domain, which its iox2ps_domain_t owns. A child of a fork has a copy of its own, in its own memory: what it calls there nobody
 * else sees, it need destroy nothing, and where another thread may have been in a call when the process forked it calls nothing. */
typedef struct iox2ps_domain_t {
  void *domain_; /**< null where there is none */
} iox2ps_domain_t;

/** What an iox2ps_domain_t begins with, also one that is static. */
#ifdef __cplusplus
#define IOX2PS_DOMAIN_INIT {nullptr}
#else
#define IOX2PS_DOMAIN_INIT {0}
#endif

/** A number of 128 bits. */
typedef struct iox2ps_wide_t {
  uint64_t low;  /**< the number modulo 2 to the 64th */
  uint64_t high; /**< the rest of it */
} iox2ps_wide_t;

/** The settings of a domain. A publisher takes its memory when it is made, as many slots of payload_size bytes as
 * iox2ps_worst_case_slots() says:
 *
 *     max_subscribers * number_of_channels * (subscriber_max_buffer_size + subscriber_max_borrowed_samples) + history_size
 *         + its loans
 *
 * So no loan of up to payload_size bytes is ever refused because no slot is free, unless its options ask for fewer. By
 * default these are 8 * 1 * (2 + 2) + 0 + 2 = 34. iox2ps_config_defaults() fills it. */
typedef struct iox2ps_config_t {
  size_t struct_size;       /**< sizeof(iox2ps_config_t), as the call that fills it says */
  iox2ps_wide_t service_id; /**< names the domain */
  iox2ps_wide_t node_id;    /**< what the header of each message names */
  size_t payload_size;      /**< how many bytes a message of a publisher may have, where its options say nothing else;
                                 a multiple of the alignment */
  size_t payload_alignment; /**< 1, 2, 4, 8 or 16: to what each payload is aligned */
  size_t max_publishers;    /**< how many may be open at a time; 2 by default */
  size_t max_subscribers;   /**< how many there may be at a time; 8 by default. Each counts in the memory of each
                                 publisher, also where it is never made */
  size_t subscriber_max_buffer_size;           /**< messages of one publisher that may wait; 0 counts as 1; 2 by default */
  size_t subscriber_max_borrowed_samples;      /**< samples of one publisher that a subscriber may hold; 2 by default */
  size_t history_size;                         /**< messages that a publisher keeps for later subscribers, which get
                                                    them at its next send or update; 0 by default. Without overflow
                                                    keep it below the buffer, or that send may block */
  size_t number_of_channels;                   /**< channels of each connection; 0 counts as 1; 1 by default */
  size_t subscriber_expired_connection_buffer; /**< connections to closed publishers that are kept */
  size_t publisher_max_loaned_samples;         /**< loans of a publisher that may be out at a time; 2 by default */
  uint32_t enable_safe_overflow;  /**< not 0, as by default: a full buffer loses its oldest message */
  uint32_t backpressure_strategy; /**< an iox2ps_backpressure_strategy_e, which counts where this is 0 */
} iox2ps_config_t;

/** What one publisher has other than the domain's settings say. iox2ps_publisher_options_of() fills it. */
typedef struct iox2ps_publisher_options_t {
  size_t struct_size;             /**< sizeof(iox2ps_publisher_options_t), as the call that fills it says */
  size_t max_loaned_samples;      /**< loans that may be out at a time */
  size_t initial_max_slice_len;   /**< how many bytes a message may have, as long as memory isn't to grow; a multiple
                                       of the domain's alignment, and not 0 where memory may grow */
  size_t preallocated_samples;    /**< slots to allocate, capped at iox2ps_worst_case_slots; 0 means the cap. With
                                       fewer a loan may be refused with IOX2PS_LOAN_ERROR_OUT_OF_MEMORY, or needs more
                                       memory where that may grow */
  uint32_t backpressure_strategy; /**< an iox2ps_backpressure_strategy_e */
  uint32_t backpressure_handler;  /**< an iox2ps_backpressure_handler_e */
  uint32_t degradation;           /**< an iox2ps_degradation_e */
  uint32_t allocation_strategy;   /**< an iox2ps_allocation_strategy_e: by default, and without options, static */
} iox2ps_publisher_options_t;

/** What one subscriber has other than the domain's settings say. iox2ps_subscriber_options_of() fills it. */
typedef struct iox2ps_subscriber_options_t {
  size_t struct_size;   /**< sizeof(iox2ps_subscriber_options_t), as the call that fills it says */
  size_t buffer_size;   /**< messages of one publisher that may wait; 0 counts as 1 */
  uint32_t degradation; /**< an iox2ps_degradation_e */
  uint32_t reserved_;   /**< 0, and refused else */
} iox2ps_subscriber_options_t;

/** The numbers of a publisher. As of each struct of numbers below, only equality of service_id, id, publisher,
 * subscriber and number is meant for a program; what ends in _ says where the domain looks first. */
typedef struct iox2ps_publisher_t {
  iox2ps_wide_t service_id;       /**< that of its domain */
  iox2ps_wide_t id;               /**< that no other port of its domain has */
  size_t place_;                  /**< where it is looked for first */
  size_t initial_max_slice_len;   /**< how many bytes a message may have, as long as memory isn't to grow */
  uint32_t backpressure_strategy; /**< an iox2ps_backpressure_strategy_e */
  uint32_t reserved_;             /**< 0; no call reads it */
} iox2ps_publisher_t;

/** The numbers of a subscriber. */
typedef struct iox2ps_subscriber_t {
  iox2ps_wide_t service_id; /**< that of its domain */
  iox2ps_wide_t id;         /**< that no other port of its domain has */
  size_t place_;            /**< where it is looked for first */
  size_t buffer_size;       /**< how many messages of one publisher may wait */
} iox2ps_subscriber_t;

/** The numbers of a message that a publisher has lent. */
typedef struct iox2ps_loan_t {
  iox2ps_wide_t service_id; /**< that of its domain */
  iox2ps_wide_t publisher;  /**< the id of its publisher */
  iox2ps_wide_t number;     /**< that no other message of its domain has */
  size_t place_;            /**< where its publisher is looked for first */
  size_t book_;             /**< where its publisher's slots are looked for first */
  size_t slot_;             /**< where it is looked for first */
} iox2ps_loan_t;

/** The numbers of a send that waits for a subscriber whose buffer is full. */
typedef struct iox2ps_blocked_t {
  iox2ps_wide_t service_id; /**< that of its domain */
  iox2ps_wide_t publisher;  /**< the id of its publisher */
  iox2ps_wide_t number;     /**< that of the message */
  size_t place_;            /**< where its publisher is looked for first */
  size_t book_;             /**< where its publisher's slots are looked for first */
  size_t slot_;             /**< where it is looked for first */
} iox2ps_blocked_t;

/** The numbers of a message that a subscriber has borrowed. */
typedef struct iox2ps_sample_t {
  iox2ps_wide_t service_id; /**< that of its domain */
  iox2ps_wide_t origin;     /**< the id of the publisher that sent it, which no call asks for */
  iox2ps_wide_t subscriber; /**< the id of its subscriber */
  iox2ps_wide_t number;     /**< that of the message */
  size_t connection_;       /**< where its connection is looked for first */
  size_t book_;             /**< where its publisher's slots are looked for first */
  size_t slot_;             /**< where it is looked for first */
} iox2ps_sample_t;

/** Where a message comes from. */
typedef struct iox2ps_header_t {
  iox2ps_wide_t node_id;       /**< that of the settings */
  iox2ps_wide_t publisher;     /**< the id of the publisher that sent it */
  uint64_t number_of_elements; /**< its bytes */
} iox2ps_header_t;

/** Something that a domain did or left undone without failing the call. */
typedef struct iox2ps_warning_t {
  iox2ps_wide_t publisher;  /**< the id of the publisher that it names, or 0 */
  iox2ps_wide_t subscriber; /**< the id of the subscriber that it names, or 0 */
  uint32_t kind;            /**< an iox2ps_warning_e */
  uint32_t failure;         /**< one of IOX2PS_CONNECTION_FAILURE_.. where it has one, else 0 */
} iox2ps_warning_t;

/** @name Settings and texts
 * None of these looks at a domain, and those that return nothing can't fail.
 * @{ */

/** The version of the archive that the program is linked to, as one number. A program that may be linked to another
 * one than it was compiled for compares it with IOX2PS_VERSION; the classes of C++ and the crate of Rust do, where a
 * domain is made. */
IOX2PS_NODISCARD uint32_t iox2ps_version(void);

/** As iox2ps_config_defaults(), for a struct of this size. Of another size than the archive knows it writes struct_size alone,
 * as 0, so that the calls that take the struct refuse it. */
void iox2ps_config_defaults_sized(iox2ps_config_t *config, size_t struct_size, uint64_t service_id, size_t payload_size,
                                  size_t payload_alignment);

/** The defaults of a domain for messages of one type, as iox2ps_config_defaults(&config, 7, sizeof(T),
 * _Alignof(T)): 2 publishers with 2 loans each, 8 subscribers with buffers of 2 and 2 borrowed samples, no
 * history, overflow. */
static inline void iox2ps_config_defaults(iox2ps_config_t *config, uint64_t service_id, size_t payload_size,
                                          size_t payload_alignment) {
  iox2ps_config_defaults_sized(config, sizeof *config, service_id, payload_size, payload_alignment);
}

/** As iox2ps_publisher_options_of(), for a struct of this size. Of another size than the archive knows, and from settings of
 * such a size, it writes struct_size alone, as 0. */
void iox2ps_publisher_options_of_sized(const iox2ps_config_t *config, iox2ps_publisher_options_t *options,
                                       size_t struct_size);

/** What a publisher has that is made without options in a domain with these settings. */
static inline void iox2ps_publisher_options_of(const iox2ps_config_t *config, iox2ps_publisher_options_t *options) {
  iox2ps_publisher_options_of_sized(config, options, sizeof *options);
}

/** As iox2ps_subscriber_options_of(), for a struct of this size. Of another size than the archive knows, and from settings of
 * such a size, it writes struct_size alone, as 0. */
void iox2ps_subscriber_options_of_sized(const iox2ps_config_t *config, iox2ps_subscriber_options_t *options,
                                        size_t struct_size);

/** What a subscriber has that is made without options in a domain with these settings. */
static inline void iox2ps_subscriber_options_of(const iox2ps_config_t *config, iox2ps_subscriber_options_t *options) {
  iox2ps_subscriber_options_of_sized(config, options, sizeof *options);
}

/** How many slots a publisher with this number of loans has, unless its options ask for fewer. IOX2PS_INVALID_..., as
 * iox2ps_domain_create() returns it; IOX2PS_WORST_CASE_TOO_LARGE. */
IOX2PS_NODISCARD iox2ps_status_t iox2ps_worst_case_slots(const iox2ps_config_t *config, size_t loans, size_t *slots);

/** The text of a code or of the kind of a warning, which is static and ends in a zero byte; len
 * is without that byte. Each number has one. */
void iox2ps_error_text_at(uint32_t code, const char **text, size_t *len);

/** The same without the length. */
static inline const char *iox2ps_error_text(uint32_t code) {
  const char *text;
  size_t len;
  iox2ps_error_text_at(code, &text, &len);
  return text;
}

/** What a call has brought that may bring this sum of iox2ps_brings_e and returned this code. A call that was refused changed
 * nothing: threads that it wakes all the same, and that are refused again, wake each other without end. A send that fails in the
 * end, and an update that lacks memory for a connection, have reached others. */
static inline uint32_t iox2ps_brought_by(uint32_t brings, iox2ps_status_t code) {
  switch (code) {
  case IOX2PS_OK:
  case IOX2PS_SEND_ERROR_UNABLE_TO_DELIVER:
  case IOX2PS_SEND_ERROR_CONNECTION_OUT_OF_MEMORY:
  case IOX2PS_CONNECTION_FAILURE_OUT_OF_MEMORY:
  case IOX2PS_CONNECTION_FAILURE_EXPIRED_BUFFER_FULL: return brings;
  case IOX2PS_BLOCKED: return brings & IOX2PS_BRINGS_MESSAGE; /* those before the full buffer have the message */
  case IOX2PS_TOO_SMALL: return brings & IOX2PS_BRINGS_ROOM;  /* it was received, and isn't released */
  case IOX2PS_SEND_ERROR_CONNECTION_BROKEN_SINCE_SENDER_NO_LONGER_EXISTS: return brings & IOX2PS_BRINGS_LOAN;
  default: return 0;
  }
}

/** @}
 * @name Memory
 * By default the library takes memory of malloc, realloc and free. A program may hand in functions of its own before it makes a
 * domain, so that all memory comes of a static region, for example, or define the three iox2ps_memory_ functions itself: then it
 * is linked without those of the archive, and without malloc where nothing else of it calls that. The library asks for memory where a domain, a port or a
 * connection is made, where a publisher's memory grows, and for the text of a recording, and for nothing else: no call that
 * passes a message on asks. Where there is none the call returns what it says of that.
 * @{ */

/** Where the library takes memory from. Of one domain at a time one function is called; of several domains, as many as threads
 * call, each with a lock of its own if at all. None calls the library. */
typedef struct iox2ps_allocator_t {
  /** Brings size bytes, 1 at least, at an address that is a multiple of alignment, a power of two of 4,096 at most; or null. */
  void *(*allocate)(void *context, size_t size, size_t alignment);
  /** Brings a block of size bytes in place of this one, which begins with the same kept bytes, or null: then the block stays. */
  void *(*reallocate)(void *context, void *block, size_t kept, size_t size, size_t alignment);
  void (*deallocate)(void *context, void *block); /**< takes a block back */
  void *context;                                  /**< what each is called with */
} iox2ps_allocator_t;

/** Takes memory of these functions from now on, which are copied, or of the C library again: null. IOX2PS_HAS_DOMAIN while the
 * process has a domain, or another thread makes one, and then nothing changes. */
IOX2PS_NODISCARD iox2ps_status_t iox2ps_set_allocator(const iox2ps_allocator_t *allocator);

/** A block of where the library takes its own, for what a language keeps beside a domain; null where there is none. It counts as a
 * domain for iox2ps_set_allocator() until it is given back. */
void *iox2ps_allocate(size_t size, size_t alignment);

/** Gives such a block back; null is none. */
void iox2ps_deallocate(void *block);

/** As allocate of iox2ps_allocator_t. A program may define it, with the two below. */
void *iox2ps_memory_allocate(size_t size, size_t alignment);

/** As reallocate of iox2ps_allocator_t. */
void *iox2ps_memory_reallocate(void *block, size_t kept, size_t size, size_t alignment);

/** As deallocate of iox2ps_allocator_t. */
void iox2ps_memory_deallocate(void *block);

/** @}
 * @name Domains
 * @{ */

/** Makes a domain. IOX2PS_HAS_DOMAIN where there is one; for the first setting that is invalid
 * IOX2PS_INVALID_STRUCT_SIZE, IOX2PS_INVALID_PAYLOAD_ALIGNMENT, IOX2PS_INVALID_PAYLOAD_SIZE or
 * IOX2PS_INVALID_BACKPRESSURE_STRATEGY, in this order; IOX2PS_OUT_OF_MEMORY. */
IOX2PS_NODISCARD iox2ps_status_t iox2ps_domain_create(iox2ps_domain_t *domain, const iox2ps_config_t *config);

/** The same, and keeps a recording of the first calls, as many as give this number of commands, with this number of
 * bytes of each message; the others are 0 in the recording. Memory for the commands is taken here, some 180 bytes for
 * each. A call that makes, sends, receives, closes, updates or changes a channel is one command, and so is each byte of a
 * message that has to be written or is read, and, unless the number of bytes is 0, each question about a channel. Other
 * questions that change nothing are none. */
IOX2PS_NODISCARD iox2ps_status_t iox2ps_domain_create_recorded(iox2ps_domain_t *domain, const iox2ps_config_t *config,
                                                               size_t commands, size_t bytes);

/** Writes the recording as text, which tools/replay runs again and tools/draw draws: docs/RECORDINGS.md says what is in
 * it. missed says how many commands had no room: the recording ends before the first of these. len says how long the text
 * is, also with IOX2PS_TOO_SMALL, where it has more than room bytes and nothing is written; it has no zero byte. The
 * recording stays, and goes on. That of a domain that isn't recorded is empty. IOX2PS_OUT_OF_MEMORY. */
IOX2PS_NODISCARD iox2ps_status_t iox2ps_domain_recording(iox2ps_domain_t *domain, void *bytes, size_t room, size_t *len,
                                                         uint64_t *missed);

/** Frees the domain with all that is in it. Its owner calls this once; a second call returns
 * IOX2PS_NO_DOMAIN. */
iox2ps_status_t iox2ps_domain_destroy(iox2ps_domain_t *domain);

/** As iox2ps_domain_config(), into a struct of this size. IOX2PS_INVALID_STRUCT_SIZE where the archive doesn't know it. */
IOX2PS_NODISCARD iox2ps_status_t iox2ps_domain_config_sized(iox2ps_domain_t *domain, iox2ps_config_t *config,
                                                            size_t struct_size);

/** Reads the settings back. IOX2PS_INVALID_STRUCT_SIZE where the archive doesn't know this header's struct. */
IOX2PS_NODISCARD static inline iox2ps_status_t iox2ps_domain_config(iox2ps_domain_t *domain, iox2ps_config_t *config) {
  return iox2ps_domain_config_sized(domain, config, sizeof *config);
}

/** How many connections the domain keeps. */
IOX2PS_NODISCARD iox2ps_status_t iox2ps_domain_connection_count(iox2ps_domain_t *domain, size_t *count);

/** How many books of slots the domain has: that of each publisher, and that of a closed one until nobody holds a slot
 * of it. */
IOX2PS_NODISCARD iox2ps_status_t iox2ps_domain_book_count(iox2ps_domain_t *domain, size_t *count);

/** How often memory for a connection was refused since the domain was made. */
IOX2PS_NODISCARD iox2ps_status_t iox2ps_domain_refused_connections(iox2ps_domain_t *domain, uint64_t *count);

/** How many of its last warnings the domain has, 32 at most. */
IOX2PS_NODISCARD iox2ps_status_t iox2ps_domain_warning_count(iox2ps_domain_t *domain, size_t *count);

/** One of the last warnings; 0 is the oldest. Reading forgets none. IOX2PS_NOT_LIVE if there is none with this
 * index. */
IOX2PS_NODISCARD iox2ps_status_t iox2ps_domain_warning(iox2ps_domain_t *domain, size_t index, iox2ps_warning_t *warning);

/** @}
 * @name Publishers
 * @{ */

/** Makes a publisher, as the settings say. IOX2PS_PUBLISHER_CREATE_ERROR_... */
IOX2PS_NODISCARD iox2ps_status_t iox2ps_publisher_create(iox2ps_domain_t *domain, iox2ps_publisher_t *publisher);

/** The same with options. Also, for the first one that is invalid, IOX2PS_INVALID_STRUCT_SIZE,
 * IOX2PS_INVALID_INITIAL_MAX_SLICE_LEN, IOX2PS_INVALID_BACKPRESSURE_STRATEGY, IOX2PS_INVALID_BACKPRESSURE_HANDLER,
 * IOX2PS_INVALID_DEGRADATION or IOX2PS_INVALID_ALLOCATION_STRATEGY, in this order. */
IOX2PS_NODISCARD iox2ps_status_t iox2ps_publisher_create_with(iox2ps_domain_t *domain,
                                                              const iox2ps_publisher_options_t *options,
                                                              iox2ps_publisher_t *publisher);

/** Closes a publisher. IOX2PS_NOT_LIVE, IOX2PS_PUBLISHER_IS_BLOCKED. */
iox2ps_status_t iox2ps_publisher_close(iox2ps_domain_t *domain, const iox2ps_publisher_t *publisher);

/** Whether a send of the publisher waits: 1 or 0. IOX2PS_NOT_LIVE. */
IOX2PS_NODISCARD iox2ps_status_t iox2ps_publisher_is_blocked(iox2ps_domain_t *domain, const iox2ps_publisher_t *publisher,
                                                             uint32_t *is_blocked);

/** Makes the publisher's connections with new subscribers and drops those with closed ones, as each
 * send does first. IOX2PS_NOT_LIVE, IOX2PS_PUBLISHER_IS_BLOCKED, IOX2PS_CONNECTION_FAILURE_..., after which
 * the other connections are made all the same. */
IOX2PS_NODISCARD iox2ps_status_t iox2ps_publisher_update_connections(iox2ps_domain_t *domain,
                                                                     const iox2ps_publisher_t *publisher);

/** Lends a message of len bytes, which are all 0, and says where they are. They may be read and
 * written there until the loan is sent or discarded or the domain is destroyed, whatever else is called in
 * between. IOX2PS_NOT_LIVE, IOX2PS_PUBLISHER_IS_BLOCKED, IOX2PS_LOAN_ERROR_...: EXCEEDS_MAX_LOAN_SIZE of a static
 * publisher alone, INTERNAL_FAILURE where memory is to grow and can't, or no number is left for the message. */
IOX2PS_NODISCARD iox2ps_status_t iox2ps_publisher_loan(iox2ps_domain_t *domain, const iox2ps_publisher_t *publisher,
                                                       size_t len, iox2ps_loan_t *loan, void **payload);

/** The same, but the bytes are unspecified: what earlier messages of this publisher left there, or 0. So it
 * costs the same for any length that the memory was used for before. */
IOX2PS_NODISCARD iox2ps_status_t iox2ps_publisher_loan_uninit(iox2ps_domain_t *domain, const iox2ps_publisher_t *publisher,
                                                              size_t len, iox2ps_loan_t *loan, void **payload);

/** As iox2ps_publisher_send_copy(), with a receivers that isn't null. */
IOX2PS_NODISCARD iox2ps_status_t iox2ps_publisher_send_copy_counted(iox2ps_domain_t *domain,
                                                                    const iox2ps_publisher_t *publisher,
                                                                    const void *bytes, size_t len, size_t *receivers,
                                                                    iox2ps_blocked_t *blocked);

/** Sends a copy of the bytes: a loan and its send in one call, which returns what either returns, and has
 * no loan left. receivers may be null. */
IOX2PS_NODISCARD static inline iox2ps_status_t iox2ps_publisher_send_copy(iox2ps_domain_t *domain,
                                                                          const iox2ps_publisher_t *publisher,
                                                                          const void *bytes, size_t len,
                                                                          size_t *receivers, iox2ps_blocked_t *blocked) {
  size_t unwanted;
  return iox2ps_publisher_send_copy_counted(domain, publisher, bytes, len, receivers ? receivers : &unwanted, blocked);
}

/** @}
 * @name Loans
 * @{ */

/** As iox2ps_loan_send(), with a receivers that isn't null. */
IOX2PS_NODISCARD iox2ps_status_t iox2ps_loan_send_counted(iox2ps_domain_t *domain, const iox2ps_loan_t *loan,
                                                          size_t *receivers, iox2ps_blocked_t *blocked);

/** Sends a message, and says how many subscribers took it; receivers may be null. With IOX2PS_BLOCKED it waits for one
 * whose buffer is full, and blocked names the send: each connected subscriber has taken the message, or is unchanged
 * and still to be tried. With IOX2PS_SEND_ERROR_UNABLE_TO_DELIVER each that had room has taken it, and with any other
 * IOX2PS_SEND_ERROR_... nobody has. The loan is consumed with IOX2PS_OK, IOX2PS_BLOCKED and each
 * IOX2PS_SEND_ERROR_..., and stays with IOX2PS_NOT_LIVE and IOX2PS_PUBLISHER_IS_BLOCKED. Where
 * a connection can't be made, the publisher's others are made all the same. */
IOX2PS_NODISCARD static inline iox2ps_status_t iox2ps_loan_send(iox2ps_domain_t *domain, const iox2ps_loan_t *loan,
                                                                size_t *receivers, iox2ps_blocked_t *blocked) {
  size_t unwanted;
  return iox2ps_loan_send_counted(domain, loan, receivers ? receivers : &unwanted, blocked);
}

/** Gives a loan back unsent. IOX2PS_NOT_LIVE. */
iox2ps_status_t iox2ps_loan_discard(iox2ps_domain_t *domain, const iox2ps_loan_t *loan);

/** Where the bytes of a loan lie, as iox2ps_publisher_loan() says it. IOX2PS_NOT_LIVE. */
IOX2PS_NODISCARD iox2ps_status_t iox2ps_loan_payload(iox2ps_domain_t *domain, const iox2ps_loan_t *loan, void **payload,
                                                     size_t *len);

/** @}
 * @name Sends that wait
 * @{ */

/** Names the subscriber whose full buffer the send waits for: the one that a retry tries again and a giving up passes over.
 * It may have been closed meanwhile; a retry goes past it then. Nothing changes. IOX2PS_NOT_LIVE. */
IOX2PS_NODISCARD iox2ps_status_t iox2ps_blocked_subscriber(iox2ps_domain_t *domain, const iox2ps_blocked_t *blocked,
                                                           iox2ps_wide_t *subscriber);

/** As iox2ps_blocked_retry(), with a receivers that isn't null. */
IOX2PS_NODISCARD iox2ps_status_t iox2ps_blocked_retry_counted(iox2ps_domain_t *domain, const iox2ps_blocked_t *blocked,
                                                              uint64_t elapsed, size_t *receivers);

/** Tries the send again at the subscriber that it waits for, and goes on to the others that remain. Whoever took the message
 * isn't tried again. Where all that remain have room they take it, and the send ends. With IOX2PS_BLOCKED it waits on, by the
 * same numbers, for one whose buffer was full; with IOX2PS_OK and IOX2PS_SEND_ERROR_UNABLE_TO_DELIVER it has ended. receivers
 * may be null. IOX2PS_NOT_LIVE.
 *
 * elapsed is how many nanoseconds ago the send was first blocked there. A handler of full buffers is told it, so that it
 * may let a send go that waits too long. The handlers of this header always answer the same, so that here each number does
 * the same: a program that measures no time says 0. */
IOX2PS_NODISCARD static inline iox2ps_status_t iox2ps_blocked_retry(iox2ps_domain_t *domain,
                                                                    const iox2ps_blocked_t *blocked, uint64_t elapsed,
                                                                    size_t *receivers) {
  size_t unwanted;
  return iox2ps_blocked_retry_counted(domain, blocked, elapsed, receivers ? receivers : &unwanted);
}

/** As iox2ps_blocked_give_up(), with a receivers that isn't null. */
IOX2PS_NODISCARD iox2ps_status_t iox2ps_blocked_give_up_counted(iox2ps_domain_t *domain, const iox2ps_blocked_t *blocked,
                                                                size_t *receivers);

/** Gives up the subscriber that the send waits for, which is left as it was and doesn't get the message, and goes on to the
 * others that remain. Returns as a retry does, and receivers may be null. */
IOX2PS_NODISCARD static inline iox2ps_status_t iox2ps_blocked_give_up(iox2ps_domain_t *domain,
                                                                      const iox2ps_blocked_t *blocked,
                                                                      size_t *receivers) {
  size_t unwanted;
  return iox2ps_blocked_give_up_counted(domain, blocked, receivers ? receivers : &unwanted);
}

/** @}
 * @name Subscribers
 * @{ */

/** Makes a subscriber, as the settings say. IOX2PS_SUBSCRIBER_CREATE_ERROR_... */
IOX2PS_NODISCARD iox2ps_status_t iox2ps_subscriber_create(iox2ps_domain_t *domain, iox2ps_subscriber_t *subscriber);

/** The same with options. Also, for the first one that is invalid, IOX2PS_INVALID_STRUCT_SIZE, IOX2PS_INVALID_DEGRADATION
 * or IOX2PS_INVALID_RESERVED, in this order. */
IOX2PS_NODISCARD iox2ps_status_t iox2ps_subscriber_create_with(iox2ps_domain_t *domain,
                                                               const iox2ps_subscriber_options_t *options,
                                                               iox2ps_subscriber_t *subscriber);

/** Closes a subscriber. Its samples stay. IOX2PS_NOT_LIVE. */
iox2ps_status_t iox2ps_subscriber_close(iox2ps_domain_t *domain, const iox2ps_subscriber_t *subscriber);

/** Updates the subscriber's connections, and says whether a message waits: 1 or 0. IOX2PS_NOT_LIVE,
 * IOX2PS_CONNECTION_FAILURE_..., after which the other connections are made all the same. */
IOX2PS_NODISCARD iox2ps_status_t iox2ps_subscriber_has_samples(iox2ps_domain_t *domain, const iox2ps_subscriber_t *subscriber,
                                                               uint32_t *waits);

/** Makes the subscriber's connections with publishers that came, as each receive does first.
 * IOX2PS_NOT_LIVE, IOX2PS_CONNECTION_FAILURE_..., after which the other connections are made all the same. */
IOX2PS_NODISCARD iox2ps_status_t iox2ps_subscriber_update_connections(iox2ps_domain_t *domain,
                                                                      const iox2ps_subscriber_t *subscriber);

/** Updates the subscriber's connections and receives a message, and says where its bytes lie. They may be
 * read there until the sample is released or the domain destroyed, whatever else is called in between, and
 * are never written. With IOX2PS_NO_SAMPLE and IOX2PS_RECEIVE_ERROR_... connections may have changed, and what waits is as
 * it was; only what a closed publisher left may be lost, where the subscriber has no room for it. A subscriber that holds
 * fewer samples in all than subscriber_max_borrowed_samples gets no IOX2PS_RECEIVE_ERROR_EXCEEDS_MAX_BORROWS, and no
 * IOX2PS_RECEIVE_ERROR_... at all, if no publisher was made or closed since its last update that succeeded.
 * IOX2PS_NOT_LIVE. Messages of one publisher come in the order in which they were sent. */
IOX2PS_NODISCARD iox2ps_status_t iox2ps_subscriber_receive(iox2ps_domain_t *domain, const iox2ps_subscriber_t *subscriber,
                                                           iox2ps_sample_t *sample, const void **payload, size_t *len);

/** Receives a message, copies it to bytes, and releases it: a receive, a copy and a release in one call, and
 * len is how many bytes were written. With IOX2PS_TOO_SMALL, which says that the message has more than room
 * bytes, nothing is lost: sample names the message, which is to be copied or read and released, len says how
 * long it is, and bytes are as they were. sample is changed with IOX2PS_TOO_SMALL alone. IOX2PS_NO_SAMPLE
 * and IOX2PS_RECEIVE_ERROR_... leave what iox2ps_subscriber_receive() says. */
IOX2PS_NODISCARD iox2ps_status_t iox2ps_subscriber_receive_copy(iox2ps_domain_t *domain,
                                                                const iox2ps_subscriber_t *subscriber, void *bytes,
                                                                size_t room, size_t *len, iox2ps_sample_t *sample);

/** @}
 * @name Samples
 * @{ */

/** Where the bytes of a sample lie, as iox2ps_subscriber_receive() says it. IOX2PS_NOT_LIVE. */
IOX2PS_NODISCARD iox2ps_status_t iox2ps_sample_payload(iox2ps_domain_t *domain, const iox2ps_sample_t *sample,
                                                       const void **payload, size_t *len);

/** Copies the bytes of a sample. With IOX2PS_TOO_SMALL, which says that there are more than room, len says how
 * many there are, and bytes are as they were. IOX2PS_NOT_LIVE. */
IOX2PS_NODISCARD iox2ps_status_t iox2ps_sample_copy(iox2ps_domain_t *domain, const iox2ps_sample_t *sample, void *bytes,
                                                    size_t room, size_t *len);

/** Where the message comes from. IOX2PS_NOT_LIVE. */
IOX2PS_NODISCARD iox2ps_status_t iox2ps_sample_header(iox2ps_domain_t *domain, const iox2ps_sample_t *sample,
                                                      iox2ps_header_t *header);

/** Gives a message back. IOX2PS_NOT_LIVE. */
iox2ps_status_t iox2ps_sample_release(iox2ps_domain_t *domain, const iox2ps_sample_t *sample);

/** @}
 * @name Channels
 * A publisher and a subscriber that are connected have as many channels as number_of_channels of the settings says. A send
 * goes to channel 0, and one to a single connection to the channel that it names; only what is in channel 0 is received. A
 * channel is in a state, which is a number. A closed channel takes no message, and channel 0 no history then, as a closed
 * subscriber does: a send goes past it and doesn't count it. What waits in channel 0 is received all the same. Each other
 * state is open, and the program says what it means. A channel may also have a hint that its subscriber is about to
 * disconnect, which goes with each change of the state. State and hint are the connection's, and go with it.
 *
 * A subscriber's calls go over all connections that it has, also with closed publishers whose messages it has; a
 * publisher's are about one, which iox2ps_publisher_get_connection_id_of() names. A port has a connection once it was made
 * by an update of its own. A publisher may make these calls while a send of it waits; one that waits for a closed channel
 * goes past it when it is tried again. The calls return IOX2PS_NO_SUCH_CHANNEL for each channel from
 * number_of_channels on, except channel 0.
 *
 * A recording has each of these calls; one with 0 bytes of each message lacks those that only ask.
 * @{ */

#define IOX2PS_CHANNEL_STATE_OPEN UINT64_C(0)  /**< the state of a new channel */
#define IOX2PS_CHANNEL_STATE_CLOSED UINT64_MAX /**< the state of a channel that takes no message */

/** Brings a channel into this state at each connection of the subscriber where it is closed, so that it takes messages
 * again, and says whether it was closed at all of them: 1 or 0. It says 1 where the subscriber has none. Where the channel
 * isn't closed it stays as it is. IOX2PS_NOT_LIVE, IOX2PS_NO_SUCH_CHANNEL. */
IOX2PS_NODISCARD iox2ps_status_t iox2ps_subscriber_set_channel_state(iox2ps_domain_t *domain,
                                                                     const iox2ps_subscriber_t *subscriber, size_t channel,
                                                                     uint64_t state, uint32_t *were_closed);

/** Closes a channel at each connection of the subscriber where it is in the expected state. IOX2PS_NOT_LIVE,
 * IOX2PS_NO_SUCH_CHANNEL. */
IOX2PS_NODISCARD iox2ps_status_t iox2ps_subscriber_close_channel(iox2ps_domain_t *domain,
                                                                 const iox2ps_subscriber_t *subscriber, size_t channel,
                                                                 uint64_t expected);

/** Hints that the subscriber is about to disconnect, at each connection where the channel is in the expected state.
 * IOX2PS_NOT_LIVE, IOX2PS_NO_SUCH_CHANNEL. */
IOX2PS_NODISCARD iox2ps_status_t iox2ps_subscriber_set_disconnect_hint(iox2ps_domain_t *domain,
                                                                       const iox2ps_subscriber_t *subscriber,
                                                                       size_t channel, uint64_t expected);

/** Whether a channel is in this state at some connection of the subscriber: 1 or 0. 0 if there is no
 * connection. IOX2PS_NOT_LIVE, IOX2PS_NO_SUCH_CHANNEL. */
IOX2PS_NODISCARD iox2ps_status_t iox2ps_subscriber_at_least_one_channel_has_state(iox2ps_domain_t *domain,
                                                                                  const iox2ps_subscriber_t *subscriber,
                                                                                  size_t channel, uint64_t state,
                                                                                  uint32_t *has_state);

/** Names the publisher's connection to the subscriber with this id, which an update or a send has made, by a number for
 * the calls below. IOX2PS_NO_CONNECTION where it has none. IOX2PS_NOT_LIVE. */
IOX2PS_NODISCARD iox2ps_status_t iox2ps_publisher_get_connection_id_of(iox2ps_domain_t *domain,
                                                                       const iox2ps_publisher_t *publisher,
                                                                       const iox2ps_wide_t *receiver_port_id,
                                                                       size_t *connection);

/** Whether a channel is in this state at one connection of the publisher: 1 or 0. 0 if there is no connection.
 * IOX2PS_NOT_LIVE, IOX2PS_NO_SUCH_CHANNEL. */
IOX2PS_NODISCARD iox2ps_status_t iox2ps_publisher_has_channel_state(iox2ps_domain_t *domain,
                                                                    const iox2ps_publisher_t *publisher, size_t channel,
                                                                    size_t connection, uint64_t state,
                                                                    uint32_t *has_state);

/** Whether a channel is in this state at one connection of the publisher and has a hint: 1 or 0. 0 if there is no
 * connection. IOX2PS_NOT_LIVE, IOX2PS_NO_SUCH_CHANNEL. */
IOX2PS_NODISCARD iox2ps_status_t iox2ps_publisher_has_disconnect_hint(iox2ps_domain_t *domain,
                                                                      const iox2ps_publisher_t *publisher, size_t channel,
                                                                      size_t connection, uint64_t state,
                                                                      uint32_t *has_hint);

/** Closes a channel at one connection of the publisher, if it is in the expected state there. Where there is no such
 * connection nothing is done. IOX2PS_NOT_LIVE, IOX2PS_NO_SUCH_CHANNEL. */
IOX2PS_NODISCARD iox2ps_status_t iox2ps_publisher_close_channel(iox2ps_domain_t *domain,
                                                                const iox2ps_publisher_t *publisher, size_t channel,
                                                                size_t connection, uint64_t expected);

/** As iox2ps_loan_deliver_offset_to_connection(), with a receivers that isn't null. */
IOX2PS_NODISCARD iox2ps_status_t iox2ps_loan_deliver_offset_to_connection_counted(iox2ps_domain_t *domain,
                                                                                  const iox2ps_loan_t *loan,
                                                                                  size_t channel, size_t connection,
                                                                                  size_t *receivers,
                                                                                  iox2ps_blocked_t *blocked);

/** Sends a message into one channel of one connection of its publisher, and to nobody else, and says how many
 * subscribers took it: 1 or 0; receivers may be null. It is 0 where there is no such connection, and where its subscriber or the channel is
 * closed. Connections aren't updated, and the message enters no history. With IOX2PS_BLOCKED it waits for room in that
 * channel, and blocked names the send. A message in another channel than 0 can't be received. The loan is consumed with
 * IOX2PS_OK, IOX2PS_BLOCKED and each IOX2PS_SEND_ERROR_..., and stays with IOX2PS_NOT_LIVE, IOX2PS_PUBLISHER_IS_BLOCKED
 * and IOX2PS_NO_SUCH_CHANNEL. */
IOX2PS_NODISCARD static inline iox2ps_status_t iox2ps_loan_deliver_offset_to_connection(iox2ps_domain_t *domain,
                                                                                        const iox2ps_loan_t *loan,
                                                                                        size_t channel,
                                                                                        size_t connection,
                                                                                        size_t *receivers,
                                                                                        iox2ps_blocked_t *blocked) {
  size_t unwanted;
  return iox2ps_loan_deliver_offset_to_connection_counted(domain, loan, channel, connection,
                                                          receivers ? receivers : &unwanted, blocked);
}

/** @} */

#ifdef __cplusplus
}
#endif
#endif
