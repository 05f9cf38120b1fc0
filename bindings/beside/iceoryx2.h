// SPDX-License-Identifier: Apache-2.0 OR MIT
/* A stand-in for iceoryx2's own C binding: the six of its functions that this library has too, by the same
 * names except for the prefix, and some types. What each takes is simplified; only that the names are there,
 * beside those of iox2_pubsub.h, matters to the programs in this folder. */
#ifndef STAND_IN_FOR_ICEORYX2_H
#define STAND_IN_FOR_ICEORYX2_H

#include <stdbool.h>
#include <stddef.h>

#ifdef __cplusplus
extern "C" {
#endif

typedef struct iox2_subscriber_t { unsigned char opaque[64]; } iox2_subscriber_t;
typedef struct iox2_publisher_t { unsigned char opaque[64]; } iox2_publisher_t;
typedef struct iox2_sample_t { unsigned char opaque[64]; } iox2_sample_t;
typedef iox2_subscriber_t *const *iox2_subscriber_h_ref;
typedef iox2_publisher_t *const *iox2_publisher_h_ref;
typedef iox2_sample_t *iox2_sample_h;
typedef iox2_sample_t *const *iox2_sample_h_ref;

int iox2_subscriber_receive(iox2_subscriber_h_ref subscriber, iox2_sample_t *sample, iox2_sample_h *handle);
int iox2_subscriber_has_samples(iox2_subscriber_h_ref subscriber, bool *has_samples);
int iox2_subscriber_update_connections(iox2_subscriber_h_ref subscriber);
int iox2_publisher_update_connections(iox2_publisher_h_ref publisher);
void iox2_sample_payload(iox2_sample_h_ref sample, const void **payload, size_t *number_of_elements);
void iox2_sample_header(iox2_sample_h_ref sample, void *storage, void **header);

#ifdef __cplusplus
}

/* And its namespace of C++. */
namespace iox2 {
template <typename P> class Publisher {
public:
  int send_copy(P value) const { return static_cast<int>(value); }
};
enum class BackpressureStrategy { RetryUntilDelivered, DiscardData };
} // namespace iox2
#endif
#endif
