// SPDX-License-Identifier: Apache-2.0 OR MIT
/* The proved functions of the archive that take a domain, under names of their own: iox2ps_proved_loan_discard is what
 * iox2ps_loan_discard is where a program has no domains of several processes. The library's copy of the archive is given
 * these names when it is built. */
#ifndef IOX2PS_PROVED_CALLS_H
#define IOX2PS_PROVED_CALLS_H

#include "iox2_pubsub.h"

/* The archive's own: bindings/archive. */
extern const uint64_t iox2ps_build_sum;

#define IOX2PS_PROVED(name) extern __typeof__(iox2ps_##name) iox2ps_proved_##name
IOX2PS_PROVED(error_text_at);
IOX2PS_PROVED(domain_create);
IOX2PS_PROVED(domain_create_recorded);
IOX2PS_PROVED(domain_recording);
IOX2PS_PROVED(domain_destroy);
IOX2PS_PROVED(domain_config_sized);
IOX2PS_PROVED(domain_connection_count);
IOX2PS_PROVED(domain_book_count);
IOX2PS_PROVED(domain_refused_connections);
IOX2PS_PROVED(domain_warning_count);
IOX2PS_PROVED(domain_warning);
IOX2PS_PROVED(publisher_create);
IOX2PS_PROVED(publisher_create_with);
IOX2PS_PROVED(publisher_close);
IOX2PS_PROVED(publisher_is_blocked);
IOX2PS_PROVED(publisher_update_connections);
IOX2PS_PROVED(publisher_loan);
IOX2PS_PROVED(publisher_loan_uninit);
IOX2PS_PROVED(publisher_send_copy_counted);
IOX2PS_PROVED(loan_send_counted);
IOX2PS_PROVED(loan_discard);
IOX2PS_PROVED(loan_payload);
IOX2PS_PROVED(blocked_subscriber);
IOX2PS_PROVED(blocked_retry_counted);
IOX2PS_PROVED(blocked_give_up_counted);
IOX2PS_PROVED(subscriber_create);
IOX2PS_PROVED(subscriber_create_with);
IOX2PS_PROVED(subscriber_close);
IOX2PS_PROVED(subscriber_has_samples);
IOX2PS_PROVED(subscriber_update_connections);
IOX2PS_PROVED(subscriber_receive);
IOX2PS_PROVED(subscriber_receive_copy);
IOX2PS_PROVED(sample_payload);
IOX2PS_PROVED(sample_copy);
IOX2PS_PROVED(sample_header);
IOX2PS_PROVED(sample_release);
IOX2PS_PROVED(subscriber_set_channel_state);
IOX2PS_PROVED(subscriber_close_channel);
IOX2PS_PROVED(subscriber_set_disconnect_hint);
IOX2PS_PROVED(subscriber_at_least_one_channel_has_state);
IOX2PS_PROVED(publisher_get_connection_id_of);
IOX2PS_PROVED(publisher_has_channel_state);
IOX2PS_PROVED(publisher_has_disconnect_hint);
IOX2PS_PROVED(publisher_close_channel);
IOX2PS_PROVED(loan_deliver_offset_to_connection_counted);

#endif
