// SPDX-License-Identifier: Apache-2.0 OR MIT
/* Makes each call on a channel from C, in as many rounds as the one argument says, where one publisher and one subscriber are
 * connected; for tools/cost_of_a_call. A round makes each call once, but brings the channel into a state twice. The status is 0 where
 * each call returns what it must. */
#include "iox2_pubsub.h"
#include <stdint.h>
#include <stdlib.h>

static int ask(iox2ps_domain_t *domain, const iox2ps_publisher_t *publisher, const iox2ps_subscriber_t *subscriber, size_t *connection) {
  const uint64_t open = IOX2PS_CHANNEL_STATE_OPEN;
  uint32_t answer;
  if (iox2ps_publisher_get_connection_id_of(domain, publisher, &subscriber->id, connection)) return 0;
  if (iox2ps_publisher_has_channel_state(domain, publisher, 1, *connection, open, &answer) || !answer) return 0;
  if (iox2ps_publisher_has_disconnect_hint(domain, publisher, 1, *connection, open, &answer) || answer) return 0;
  return !iox2ps_subscriber_at_least_one_channel_has_state(domain, subscriber, 1, open, &answer) && answer;
}

static int change(iox2ps_domain_t *domain, const iox2ps_publisher_t *publisher, const iox2ps_subscriber_t *subscriber, size_t connection) {
  const uint64_t open = IOX2PS_CHANNEL_STATE_OPEN;
  uint32_t answer;
  if (iox2ps_subscriber_close_channel(domain, subscriber, 1, open)) return 0;
  if (iox2ps_subscriber_set_channel_state(domain, subscriber, 1, open, &answer) || !answer) return 0;
  if (iox2ps_publisher_close_channel(domain, publisher, 1, connection, open)) return 0;
  if (iox2ps_subscriber_set_channel_state(domain, subscriber, 1, open, &answer) || !answer) return 0;
  return !iox2ps_subscriber_set_disconnect_hint(domain, subscriber, 1, open + 1);
}

static int send_to(iox2ps_domain_t *domain, const iox2ps_publisher_t *publisher, const iox2ps_subscriber_t *subscriber, size_t connection) {
  iox2ps_loan_t loan;
  iox2ps_blocked_t blocked;
  iox2ps_sample_t sample;
  size_t receivers, len;
  void *out;
  const void *in;
  if (iox2ps_publisher_loan(domain, publisher, sizeof(uint64_t), &loan, &out)) return 0;
  if (iox2ps_loan_deliver_offset_to_connection(domain, &loan, 0, connection, &receivers, &blocked) || receivers != 1) return 0;
  return !iox2ps_subscriber_receive(domain, subscriber, &sample, &in, &len) && !iox2ps_sample_release(domain, &sample);
}

int main(int count, char **words) {
  iox2ps_domain_t domain = IOX2PS_DOMAIN_INIT;
  iox2ps_config_t config;
  iox2ps_publisher_t publisher;
  iox2ps_subscriber_t subscriber;
  const uint64_t rounds = count == 2 ? strtoull(words[1], NULL, 10) : 0;
  size_t connection;
  iox2ps_config_defaults(&config, 1, sizeof rounds, 1);
  config.number_of_channels = 2;
  if (iox2ps_domain_create(&domain, &config) || iox2ps_publisher_create(&domain, &publisher)
      || iox2ps_subscriber_create(&domain, &subscriber) || iox2ps_publisher_update_connections(&domain, &publisher))
    return 1;
  for (uint64_t round = 0; round < rounds; round++) {
    if (!ask(&domain, &publisher, &subscriber, &connection) || !change(&domain, &publisher, &subscriber, connection)) return 1;
    if (!send_to(&domain, &publisher, &subscriber, connection)) return 1;
  }
  return iox2ps_domain_destroy(&domain) != 0;
}
