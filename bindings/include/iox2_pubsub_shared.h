// SPDX-License-Identifier: Apache-2.0 OR MIT
/** @file
 * One domain in several languages of one process: what share() of a SharedDomain in C++ or Rust hands out, and by what another
 * language joins it, as Domain.join of Python does. Both read and write each message where it lies.
 *
 * The domain stays its owner's, which has the lock and wakes those who wait. Who joined makes calls of iox2_pubsub.h as call() says,
 * by an archive of its own where it has one, and counts as one more thread of the domain: its calls, loans and samples are used as
 * iox2_pubsub.h says under "Threads".
 *
 * Whoever has an iox2ps_shared_domain_t keeps the domain alive, with the archive's code that made it: keep() and release() count
 * that, on any thread. Who joined releases it once it has left.
 *
 * In a child of a fork call() and join() return IOX2PS_AFTER_FORK, leave() and stop_waits() do nothing, and nobody is woken. */
#ifndef IOX2_PUBSUB_SHARED_H
#define IOX2_PUBSUB_SHARED_H

#include "iox2_pubsub.h"

#ifdef __cplusplus
extern "C" {
#endif

/** What call() and join() return in a child of the process that made the domain. */
#define IOX2PS_AFTER_FORK UINT32_C(0xfffffffd)
/** What iox2ps_shared_domain_join() returns where the owner's archive is of another version. */
#define IOX2PS_OTHER_VERSION UINT32_C(0xffffffff)

/** What a call brings beside iox2ps_brings_e: a subscriber was made, and all publishers of the domain connect to it, with their
 * history. It is said of a call whatever its code is: the owner looks at that. */
#define IOX2PS_BRINGS_SUBSCRIBER UINT32_C(16)

/** Some calls on the domain, with no other between them. Returns the code of the last. It runs with the lock: it waits for nothing
 * that needs the domain, and calls nothing of the iox2ps_shared_domain_t. */
typedef iox2ps_status_t (*iox2ps_make_t)(iox2ps_domain_t *domain, void *what);

/** Somebody who joined. Its place is the joiner's, and stays until it has left. */
typedef struct iox2ps_joined_t {
  size_t struct_size; /**< sizeof(iox2ps_joined_t) */
  /** Called with the lock, on whatever thread: a call of anybody's, its own too, may have brought this sum of iox2ps_brings_e. It
   * wakes its own that wait for it. As iox2ps_make_t it waits for nothing and calls nothing. */
  void (*wake)(struct iox2ps_joined_t *joined, uint32_t brings);
  /** Called likewise: a subscriber was made, and the joiner's publishers are to be updated, by
   * iox2ps_publisher_update_connections(). wake() comes after it. */
  void (*connect)(struct iox2ps_joined_t *joined, iox2ps_domain_t *domain);
  uint32_t waits_are_stopped; /**< not 0: no call waits. The owner writes it with the lock, and wakes then; it is read with the lock */
  uint32_t reserved_;         /**< 0 */
  struct iox2ps_joined_t *before_; /**< the owner's */
  struct iox2ps_joined_t *after_;  /**< the owner's */
} iox2ps_joined_t;

/** A domain of another language. It is never changed. */
typedef struct iox2ps_shared_domain_t {
  size_t struct_size;       /**< sizeof(iox2ps_shared_domain_t) of its owner; a later version may add fields at the end */
  uint32_t version;         /**< iox2ps_version() of its owner */
  uint32_t is_slice;        /**< not 0: a message is any number of values; else it is one */
  size_t element_size;      /**< bytes of one value */
  size_t element_alignment; /**< to how many bytes a value is aligned */
  /** Takes the lock, makes these calls, wakes all whom they may help, here and at the owner's, and gives the lock back. Returns the
   * code, or IOX2PS_AFTER_FORK. The owner's listeners are called after that, on this thread. */
  iox2ps_status_t (*call)(const struct iox2ps_shared_domain_t *shared, uint32_t brings, iox2ps_make_t make, void *what);
  /** Lets this be told what calls bring, until it leaves. IOX2PS_AFTER_FORK, IOX2PS_OUT_OF_MEMORY. */
  iox2ps_status_t (*join)(const struct iox2ps_shared_domain_t *shared, iox2ps_joined_t *joined);
  /** It is told nothing any longer: nobody is in its wake() or connect() when this returns. */
  void (*leave)(const struct iox2ps_shared_domain_t *shared, iox2ps_joined_t *joined);
  /** Not 0: lets no call of anybody's wait, as stop_waits() of the owner does. 0: calls wait again. */
  void (*stop_waits)(const struct iox2ps_shared_domain_t *shared, uint32_t stopped);
  void (*keep)(const struct iox2ps_shared_domain_t *shared);    /**< one more has it */
  void (*release)(const struct iox2ps_shared_domain_t *shared); /**< one has it no longer. With the last it goes */
} iox2ps_shared_domain_t;

/** Joins, where both sides are of one version. Returns what join() does; IOX2PS_OTHER_VERSION, IOX2PS_INVALID_STRUCT_SIZE. */
IOX2PS_NODISCARD static inline iox2ps_status_t iox2ps_shared_domain_join(const iox2ps_shared_domain_t *shared,
                                                                         iox2ps_joined_t *joined) {
  if (shared->struct_size < sizeof *shared || joined->struct_size != sizeof *joined) return IOX2PS_INVALID_STRUCT_SIZE;
  if (shared->version != iox2ps_version()) return IOX2PS_OTHER_VERSION;
  return shared->join(shared, joined);
}

/** The name of a capsule of Python with an iox2ps_shared_domain_t, which Domain.join takes. */
#define IOX2PS_SHARED_DOMAIN_CAPSULE "iox2_pubsub.shared_domain"

#ifdef Py_PYTHON_H
static inline void iox2ps_release_capsule_(PyObject *capsule) {
  const iox2ps_shared_domain_t *shared =
      (const iox2ps_shared_domain_t *)PyCapsule_GetPointer(capsule, IOX2PS_SHARED_DOMAIN_CAPSULE);
  if (shared) shared->release(shared);
}

/** Where Python.h was included before: a capsule for Domain.join, which keeps the domain too. The GIL is held. Null with an
 * exception where Python has no memory. */
static inline PyObject *iox2ps_shared_domain_capsule(const iox2ps_shared_domain_t *shared) {
  PyObject *capsule = PyCapsule_New((void *)shared, IOX2PS_SHARED_DOMAIN_CAPSULE, iox2ps_release_capsule_);
  if (capsule) shared->keep(shared);
  return capsule;
}
#endif

#ifdef __cplusplus
}
#endif
#endif
