// SPDX-License-Identifier: Apache-2.0 OR MIT
/* The stand-in's functions: each says that it was called. */
#include "iceoryx2.h"

int iox2_subscriber_receive(iox2_subscriber_h_ref subscriber, iox2_sample_t *sample, iox2_sample_h *handle) {
  (void)subscriber;
  *handle = sample;
  return 101;
}

int iox2_subscriber_has_samples(iox2_subscriber_h_ref subscriber, bool *has_samples) {
  (void)subscriber;
  *has_samples = true;
  return 102;
}

int iox2_subscriber_update_connections(iox2_subscriber_h_ref subscriber) {
  (void)subscriber;
  return 103;
}

int iox2_publisher_update_connections(iox2_publisher_h_ref publisher) {
  (void)publisher;
  return 104;
}

void iox2_sample_payload(iox2_sample_h_ref sample, const void **payload, size_t *number_of_elements) {
  *payload = *sample;
  *number_of_elements = 105;
}

void iox2_sample_header(iox2_sample_h_ref sample, void *storage, void **header) {
  (void)sample;
  *header = storage;
}
