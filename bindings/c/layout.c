// SPDX-License-Identifier: Apache-2.0 OR MIT
/* How the archive has the structs of the headers in memory, on each of its processors. `tools/bindings layouts` makes this file. */
#include "iox2_pubsub_shared.h"

#ifdef __cplusplus
#define HAS(what, number) static_assert((what) == (number), #what)
#define ALIGNMENT(type) alignof(type)
#else
#define HAS(what, number) _Static_assert((what) == (number), #what)
#define ALIGNMENT(type) _Alignof(type)
#endif

HAS(sizeof(void *), 8);
HAS(sizeof(size_t), 8);

HAS(sizeof(iox2ps_domain_t), 8);
HAS(ALIGNMENT(iox2ps_domain_t), 8);
HAS(offsetof(iox2ps_domain_t, domain_), 0);

HAS(sizeof(iox2ps_wide_t), 16);
HAS(ALIGNMENT(iox2ps_wide_t), 8);
HAS(offsetof(iox2ps_wide_t, low), 0);
HAS(offsetof(iox2ps_wide_t, high), 8);

HAS(sizeof(iox2ps_config_t), 128);
HAS(ALIGNMENT(iox2ps_config_t), 8);
HAS(offsetof(iox2ps_config_t, struct_size), 0);
HAS(offsetof(iox2ps_config_t, service_id), 8);
HAS(offsetof(iox2ps_config_t, node_id), 24);
HAS(offsetof(iox2ps_config_t, payload_size), 40);
HAS(offsetof(iox2ps_config_t, payload_alignment), 48);
HAS(offsetof(iox2ps_config_t, max_publishers), 56);
HAS(offsetof(iox2ps_config_t, max_subscribers), 64);
HAS(offsetof(iox2ps_config_t, subscriber_max_buffer_size), 72);
HAS(offsetof(iox2ps_config_t, subscriber_max_borrowed_samples), 80);
HAS(offsetof(iox2ps_config_t, history_size), 88);
HAS(offsetof(iox2ps_config_t, number_of_channels), 96);
HAS(offsetof(iox2ps_config_t, subscriber_expired_connection_buffer), 104);
HAS(offsetof(iox2ps_config_t, publisher_max_loaned_samples), 112);
HAS(offsetof(iox2ps_config_t, enable_safe_overflow), 120);
HAS(offsetof(iox2ps_config_t, backpressure_strategy), 124);

HAS(sizeof(iox2ps_publisher_options_t), 48);
HAS(ALIGNMENT(iox2ps_publisher_options_t), 8);
HAS(offsetof(iox2ps_publisher_options_t, struct_size), 0);
HAS(offsetof(iox2ps_publisher_options_t, max_loaned_samples), 8);
HAS(offsetof(iox2ps_publisher_options_t, initial_max_slice_len), 16);
HAS(offsetof(iox2ps_publisher_options_t, preallocated_samples), 24);
HAS(offsetof(iox2ps_publisher_options_t, backpressure_strategy), 32);
HAS(offsetof(iox2ps_publisher_options_t, backpressure_handler), 36);
HAS(offsetof(iox2ps_publisher_options_t, degradation), 40);
HAS(offsetof(iox2ps_publisher_options_t, allocation_strategy), 44);

HAS(sizeof(iox2ps_subscriber_options_t), 24);
HAS(ALIGNMENT(iox2ps_subscriber_options_t), 8);
HAS(offsetof(iox2ps_subscriber_options_t, struct_size), 0);
HAS(offsetof(iox2ps_subscriber_options_t, buffer_size), 8);
HAS(offsetof(iox2ps_subscriber_options_t, degradation), 16);
HAS(offsetof(iox2ps_subscriber_options_t, reserved_), 20);

HAS(sizeof(iox2ps_publisher_t), 56);
HAS(ALIGNMENT(iox2ps_publisher_t), 8);
HAS(offsetof(iox2ps_publisher_t, service_id), 0);
HAS(offsetof(iox2ps_publisher_t, id), 16);
HAS(offsetof(iox2ps_publisher_t, place_), 32);
HAS(offsetof(iox2ps_publisher_t, initial_max_slice_len), 40);
HAS(offsetof(iox2ps_publisher_t, backpressure_strategy), 48);
HAS(offsetof(iox2ps_publisher_t, reserved_), 52);

HAS(sizeof(iox2ps_subscriber_t), 48);
HAS(ALIGNMENT(iox2ps_subscriber_t), 8);
HAS(offsetof(iox2ps_subscriber_t, service_id), 0);
HAS(offsetof(iox2ps_subscriber_t, id), 16);
HAS(offsetof(iox2ps_subscriber_t, place_), 32);
HAS(offsetof(iox2ps_subscriber_t, buffer_size), 40);

HAS(sizeof(iox2ps_loan_t), 72);
HAS(ALIGNMENT(iox2ps_loan_t), 8);
HAS(offsetof(iox2ps_loan_t, service_id), 0);
HAS(offsetof(iox2ps_loan_t, publisher), 16);
HAS(offsetof(iox2ps_loan_t, number), 32);
HAS(offsetof(iox2ps_loan_t, place_), 48);
HAS(offsetof(iox2ps_loan_t, book_), 56);
HAS(offsetof(iox2ps_loan_t, slot_), 64);

HAS(sizeof(iox2ps_blocked_t), 72);
HAS(ALIGNMENT(iox2ps_blocked_t), 8);
HAS(offsetof(iox2ps_blocked_t, service_id), 0);
HAS(offsetof(iox2ps_blocked_t, publisher), 16);
HAS(offsetof(iox2ps_blocked_t, number), 32);
HAS(offsetof(iox2ps_blocked_t, place_), 48);
HAS(offsetof(iox2ps_blocked_t, book_), 56);
HAS(offsetof(iox2ps_blocked_t, slot_), 64);

HAS(sizeof(iox2ps_sample_t), 88);
HAS(ALIGNMENT(iox2ps_sample_t), 8);
HAS(offsetof(iox2ps_sample_t, service_id), 0);
HAS(offsetof(iox2ps_sample_t, origin), 16);
HAS(offsetof(iox2ps_sample_t, subscriber), 32);
HAS(offsetof(iox2ps_sample_t, number), 48);
HAS(offsetof(iox2ps_sample_t, connection_), 64);
HAS(offsetof(iox2ps_sample_t, book_), 72);
HAS(offsetof(iox2ps_sample_t, slot_), 80);

HAS(sizeof(iox2ps_header_t), 40);
HAS(ALIGNMENT(iox2ps_header_t), 8);
HAS(offsetof(iox2ps_header_t, node_id), 0);
HAS(offsetof(iox2ps_header_t, publisher), 16);
HAS(offsetof(iox2ps_header_t, number_of_elements), 32);

HAS(sizeof(iox2ps_warning_t), 40);
HAS(ALIGNMENT(iox2ps_warning_t), 8);
HAS(offsetof(iox2ps_warning_t, publisher), 0);
HAS(offsetof(iox2ps_warning_t, subscriber), 16);
HAS(offsetof(iox2ps_warning_t, kind), 32);
HAS(offsetof(iox2ps_warning_t, failure), 36);

HAS(sizeof(iox2ps_allocator_t), 32);
HAS(ALIGNMENT(iox2ps_allocator_t), 8);
HAS(offsetof(iox2ps_allocator_t, allocate), 0);
HAS(offsetof(iox2ps_allocator_t, reallocate), 8);
HAS(offsetof(iox2ps_allocator_t, deallocate), 16);
HAS(offsetof(iox2ps_allocator_t, context), 24);

HAS(sizeof(iox2ps_joined_t), 48);
HAS(ALIGNMENT(iox2ps_joined_t), 8);
HAS(offsetof(iox2ps_joined_t, struct_size), 0);
HAS(offsetof(iox2ps_joined_t, wake), 8);
HAS(offsetof(iox2ps_joined_t, connect), 16);
HAS(offsetof(iox2ps_joined_t, waits_are_stopped), 24);
HAS(offsetof(iox2ps_joined_t, reserved_), 28);
HAS(offsetof(iox2ps_joined_t, before_), 32);
HAS(offsetof(iox2ps_joined_t, after_), 40);

HAS(sizeof(iox2ps_shared_domain_t), 80);
HAS(ALIGNMENT(iox2ps_shared_domain_t), 8);
HAS(offsetof(iox2ps_shared_domain_t, struct_size), 0);
HAS(offsetof(iox2ps_shared_domain_t, version), 8);
HAS(offsetof(iox2ps_shared_domain_t, is_slice), 12);
HAS(offsetof(iox2ps_shared_domain_t, element_size), 16);
HAS(offsetof(iox2ps_shared_domain_t, element_alignment), 24);
HAS(offsetof(iox2ps_shared_domain_t, call), 32);
HAS(offsetof(iox2ps_shared_domain_t, join), 40);
HAS(offsetof(iox2ps_shared_domain_t, leave), 48);
HAS(offsetof(iox2ps_shared_domain_t, stop_waits), 56);
HAS(offsetof(iox2ps_shared_domain_t, keep), 64);
HAS(offsetof(iox2ps_shared_domain_t, release), 72);
