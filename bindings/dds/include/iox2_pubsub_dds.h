// SPDX-License-Identifier: Apache-2.0 OR MIT
/* Gateways between domains of iox2_pubsub and topics of DDS, by Eclipse Cyclone DDS 0.10, for C and C++.
 *
 * What publishers of a domain send goes to the topic. What comes from the topic is lent, written in place and sent in the
 * domain by the gateway's own publisher. A gateway takes one of the domain's publishers and one of its subscribers, and is
 * polled: forward never waits, wait waits for the topics. A message that the other side can't take yet waits in the gateway,
 * so that a full side holds back the one before it, as the domain's settings say. iox2ps_dds_start gives a gateway threads
 * of its own instead.
 *
 * A process has one participant of DDS in each DDS domain, which all its gateways share, and one gateway for each topic
 * and for each domain of its own: a second one is refused. A gateway is to live as long as its domain: another one later
 * would send the history again.
 *
 * The caller's obligations: pointers as iox2_pubsub.h says; a domain lives, at its place, until its gateway was closed; gateways
 * that were opened together (one iox2ps_dds_gateways_t) are used by one thread at a time, which is that of their domains,
 * except iox2ps_dds_wake; and nothing is closed twice. Cyclone DDS has threads of its own, which never call a domain.
 *
 * Each call returns IOX2PS_OK, a code of the domain, or one of those below. Where there is a why, it gets words for a
 * refusal, cut to its room and ended by a zero byte; it may be null with a room of 0. What opens or starts something
 * refuses where memory or a thread isn't had; in other calls that ends the program. No call lets out an exception of C++.
 *
 * A child of a fork has none of the threads of DDS. What its parent has opened moves nothing there: calls return
 * IOX2PS_DDS_AFTER_FORK, or zeros where they return no code, and what is closed is left as it is. A child opens no gateways
 * unless it runs another program. */
#ifndef IOX2_PUBSUB_DDS_H
#define IOX2_PUBSUB_DDS_H

#include "iox2_pubsub.h"

#ifdef __cplusplus
#define IOX2PS_DDS_NOEXCEPT noexcept
extern "C" {
#else
#define IOX2PS_DDS_NOEXCEPT
#endif

typedef enum iox2ps_dds_status_e {
  IOX2PS_DDS_REFUSED = 200,      /* by DDS, or settings that don't fit; why says which */
  IOX2PS_DDS_TIMEOUT = 201,      /* the time passed before */
  IOX2PS_DDS_HAS_THREADS = 202,  /* the gateway has threads, which do this */
  IOX2PS_DDS_UNKNOWN = 203,      /* no message of this number came from elsewhere, or it is gone */
  IOX2PS_DDS_NO_PEER = 204,      /* messages were sent, and no reader of their type was met so far */
  IOX2PS_DDS_AFTER_FORK = 205    /* this process is a child of the one that has the gateways */
} iox2ps_dds_status_e;

typedef enum iox2ps_dds_reliability_e {
  IOX2PS_DDS_RELIABLE = 0,   /* as the domain: nothing is lost where it holds back, else the last messages are kept */
  IOX2PS_DDS_BEST_EFFORT = 1 /* each message is tried once; ROS 2's sensor data wants it */
} iox2ps_dds_reliability_e;

typedef struct iox2ps_dds_gateways_t iox2ps_dds_gateways_t;
typedef struct iox2ps_dds_gateway_t iox2ps_dds_gateway_t;

/* What a call of the domain may bring to those who wait, as a sum, and what a call waits for. */
typedef enum iox2ps_dds_waits_e {
  IOX2PS_DDS_MESSAGE = 1, /* a message: IOX2PS_NO_SAMPLE says that there is none */
  IOX2PS_DDS_ROOM = 2,    /* room for a blocked send: IOX2PS_BLOCKED */
  IOX2PS_DDS_FREE = 4,    /* the end of a publisher's earlier send: IOX2PS_PUBLISHER_IS_BLOCKED */
  IOX2PS_DDS_LOAN = 8     /* a slot to lend */
} iox2ps_dds_waits_e;

/* Some calls of the domain, which have to be made with no other between them. */
typedef uint32_t (*iox2ps_dds_make_t)(iox2ps_domain_t *domain, void *what);

/* How a domain is called that threads share. call takes the lock, returns what make returns, gives the lock back and wakes
 * those whom it may have brought something. wait does the same again as long as make's code says that this port still waits,
 * each time when something came that may help, and until this number of nanoseconds has passed. wait may be null where no gateway
 * has threads. */
typedef struct iox2ps_dds_lock_t {
  uint32_t (*call)(void *context, iox2ps_domain_t *domain, uint32_t brings, iox2ps_dds_make_t make, void *what);
  uint32_t (*wait)(void *context, iox2ps_domain_t *domain, uint32_t waits, iox2ps_wide_t port, uint32_t brings,
                   uint64_t nanoseconds, iox2ps_dds_make_t make, void *what);
  void *context;
} iox2ps_dds_lock_t;

/* How one domain is joined to its topic. Texts are copied. */
typedef struct iox2ps_dds_settings_t {
  const char *topic;        /* null: iox2/ and the service_id in 32 hexadecimal digits */
  const char *type_name;    /* null: none. Both sides' names, sizes and alignments of a value have to be equal */
  size_t element_size;      /* bytes of one value */
  uint32_t is_slice;        /* not 0: a message is any number of values; else it is one */
  uint32_t reliability;     /* an iox2ps_dds_reliability_e */
  uint32_t volatile_reader; /* not 0: ask others for no history, which ROS 2's publishers don't offer by default */
  uint32_t only_known;      /* not 0: pass over writers that say no type, as those of other programs than gateways do */
  size_t reader_limit;      /* where the domain holds back: how many messages may wait in DDS's reader */
  iox2ps_dds_lock_t lock;   /* all null: the domain is one thread's */
} iox2ps_dds_settings_t;

/* What one call moved, and what waits. */
typedef struct iox2ps_dds_forwarded_t {
  size_t sent;      /* from domains to topics */
  size_t received;  /* from topics to domains */
  size_t dropped;   /* both ways; the counts say why */
  size_t held;      /* messages of domains that wait for their topic */
  uint32_t blocked; /* how many gateways have a message of the topic that waits for a subscriber of the domain */
  uint32_t reserved_;
} iox2ps_dds_forwarded_t;

/* All since the gateway was opened. */
typedef struct iox2ps_dds_counts_t {
  uint64_t sent, received;
  uint64_t own;            /* the gateway's own messages, which it passes over */
  uint64_t too_long;       /* from the topic: more bytes than a message of the domain may have */
  uint64_t other_size;     /* from the topic: another number of values of the domain's type than the frame says */
  uint64_t other_type;     /* from the topic: of a writer whose type is another */
  uint64_t malformed;      /* from the topic: no frame, but under its name */
  uint64_t no_loan;        /* from the topic: the domain lent nothing */
  uint64_t not_sent;       /* from the topic: the domain's send failed */
  uint64_t missed;         /* from the topic: numbered by another gateway, and never taken here: the topic keeps the last
                              messages alone, or is best effort */
  uint64_t take_failed;    /* calls that DDS refused */
  uint64_t write_failed;   /* from the domain: DDS refused the message, for another reason than want of room */
  uint64_t receive_failed; /* receives that the domain refused */
  int64_t last_dds_code;   /* of the last call that DDS refused */
} iox2ps_dds_counts_t;

/* Who else has the topic. */
typedef struct iox2ps_dds_peers_t {
  uint32_t readers, writers;                           /* matched */
  uint32_t incompatible_readers, incompatible_writers; /* met so far, with other quality of service */
  uint32_t lost;                                       /* messages that DDS itself counts as lost */
  uint32_t other_types;                                /* endpoints of this topic with another type, of the first 256 */
  char other_type[128];                                /* one of them, cut */
} iox2ps_dds_peers_t;

/* Where a message of the domain came from that the gateway has sent. */
typedef struct iox2ps_dds_origin_t {
  iox2ps_wide_t node, publisher;
} iox2ps_dds_origin_t;

/* ---- the gateways of a thread */

/* Joins a DDS domain, by number: 0 to 230. What is longer than max_message_size bytes is thrown away by DDS before it takes
 * memory, if this is the process's first use of that DDS domain; 0 means 1 MiB. Later gateways for longer
 * messages are refused. */
IOX2PS_NODISCARD iox2ps_status_t iox2ps_dds_gateways_open(uint32_t dds_domain, size_t max_message_size,
                                                          iox2ps_dds_gateways_t **gateways, char *why,
                                                          size_t room) IOX2PS_DDS_NOEXCEPT;

/* Gives the group up. Gateways that are open in it stay, and keep what they need. */
void iox2ps_dds_gateways_close(iox2ps_dds_gateways_t *gateways) IOX2PS_DDS_NOEXCEPT;

/* Moves what is there, for each gateway at most this number of messages each way, and never waits. */
void iox2ps_dds_forward(iox2ps_dds_gateways_t *gateways, size_t most,
                        iox2ps_dds_forwarded_t *forwarded) IOX2PS_DDS_NOEXCEPT;

/* The same, and if nothing is there waits for the topics this number of nanoseconds at most. It doesn't wait while a message of
 * a topic waits for a subscriber, which the caller's thread alone can let receive. */
void iox2ps_dds_wait(iox2ps_dds_gateways_t *gateways, uint64_t nanoseconds, size_t most,
                     iox2ps_dds_forwarded_t *forwarded) IOX2PS_DDS_NOEXCEPT;

/* Ends the wait that is, or the next one. Any thread may call it. */
void iox2ps_dds_wake(iox2ps_dds_gateways_t *gateways) IOX2PS_DDS_NOEXCEPT;

/* Waits until the topics' readers have what was sent, as a program does before it ends. IOX2PS_DDS_TIMEOUT.
 * IOX2PS_DDS_NO_PEER, without a wait, where a gateway has sent messages and has met no reader that takes them since it was
 * opened: nobody else has the topic, or only with another type. */
IOX2PS_NODISCARD iox2ps_status_t iox2ps_dds_flush(iox2ps_dds_gateways_t *gateways, uint64_t nanoseconds) IOX2PS_DDS_NOEXCEPT;

/* ---- one gateway */

/* The settings for messages of one value of this number of bytes, or of slices of them. */
void iox2ps_dds_settings_defaults(iox2ps_dds_settings_t *settings, size_t element_size,
                                  uint32_t is_slice) IOX2PS_DDS_NOEXCEPT;

/* Opens a gateway. Where a port is refused the code is the domain's; else IOX2PS_DDS_REFUSED: for settings that don't fit the
 * domain, a domain or a topic that has a gateway of this process, or what DDS refuses. */
IOX2PS_NODISCARD iox2ps_status_t iox2ps_dds_gateway_open(iox2ps_dds_gateways_t *gateways, iox2ps_domain_t *domain,
                                                         const iox2ps_dds_settings_t *settings,
                                                         iox2ps_dds_gateway_t **gateway, char *why,
                                                         size_t room) IOX2PS_DDS_NOEXCEPT;

/* Ends the gateway's threads, gives up what it holds, closes its ports and leaves the topic. */
void iox2ps_dds_gateway_close(iox2ps_dds_gateway_t *gateway) IOX2PS_DDS_NOEXCEPT;

void iox2ps_dds_counts(const iox2ps_dds_gateway_t *gateway, iox2ps_dds_counts_t *counts) IOX2PS_DDS_NOEXCEPT;
void iox2ps_dds_peers(iox2ps_dds_gateway_t *gateway, iox2ps_dds_peers_t *peers) IOX2PS_DDS_NOEXCEPT;

/* The id of the gateway's publisher, which is the origin of all that came from elsewhere. */
iox2ps_wide_t iox2ps_dds_publisher(const iox2ps_dds_gateway_t *gateway) IOX2PS_DDS_NOEXCEPT;

/* Which node and publisher sent the message of this number, a sample's number field. It is known as long as somebody has the
 * message. IOX2PS_DDS_UNKNOWN. */
IOX2PS_NODISCARD iox2ps_status_t iox2ps_dds_origin(iox2ps_dds_gateway_t *gateway, iox2ps_wide_t number,
                                                   iox2ps_dds_origin_t *origin) IOX2PS_DDS_NOEXCEPT;

/* Gives the gateway two threads, one for each way, until it is stopped or closed. Its settings have a lock with a wait. The
 * group's forward and wait pass it over meanwhile. IOX2PS_DDS_REFUSED, IOX2PS_DDS_HAS_THREADS. */
IOX2PS_NODISCARD iox2ps_status_t iox2ps_dds_start(iox2ps_dds_gateway_t *gateway) IOX2PS_DDS_NOEXCEPT;
void iox2ps_dds_stop(iox2ps_dds_gateway_t *gateway) IOX2PS_DDS_NOEXCEPT;

#ifdef __cplusplus
}
#endif
#endif
