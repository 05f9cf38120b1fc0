// SPDX-License-Identifier: Apache-2.0 OR MIT
/* Records what it calls, and prints the recording, which tools/replay runs again. */
#include "../must.h"

typedef struct { uint32_t number, millidegrees; } reading_t;

static iox2ps_domain_t domain = IOX2PS_DOMAIN_INIT;

/* Sends two readings. The second waits for a subscriber that is full. */
static void send(const iox2ps_publisher_t *publisher, const iox2ps_subscriber_t *subscriber) {
  iox2ps_loan_t loan;
  iox2ps_blocked_t blocked;
  iox2ps_sample_t sample;
  void *written;
  const void *read;
  size_t len;
  reading_t second = {2, 21000};
  MUST(iox2ps_publisher_loan(&domain, publisher, sizeof(reading_t), &loan, &written));
  *(reading_t *)written = (reading_t){1, 20500};
  MUST(iox2ps_loan_send(&domain, &loan, NULL, &blocked));
  if (iox2ps_publisher_send_copy(&domain, publisher, &second, sizeof second, NULL, &blocked) != IOX2PS_BLOCKED) exit(1);
  MUST(iox2ps_subscriber_receive(&domain, subscriber, &sample, &read, &len));
  MUST(iox2ps_sample_release(&domain, &sample));
  MUST(iox2ps_blocked_retry(&domain, &blocked, 0, NULL));
}

static void print(void) {
  char text[4096];
  size_t len;
  uint64_t missed;
  MUST(iox2ps_domain_recording(&domain, text, sizeof text, &len, &missed));
  fwrite(text, 1, len, stdout);
  if (missed) exit(1);
}

int main(void) {
  iox2ps_config_t config;
  iox2ps_publisher_t publisher;
  iox2ps_subscriber_t subscriber, late;
  iox2ps_config_defaults(&config, 7, sizeof(reading_t), _Alignof(reading_t));
  config.subscriber_max_buffer_size = 1;
  config.enable_safe_overflow = 0;
  MUST(iox2ps_domain_create_recorded(&domain, &config, 200, sizeof(reading_t)));
  MUST(iox2ps_subscriber_create(&domain, &subscriber));
  MUST(iox2ps_publisher_create(&domain, &publisher));
  send(&publisher, &subscriber);
  MUST(iox2ps_subscriber_create(&domain, &late));
  MUST(iox2ps_publisher_update_connections(&domain, &publisher));
  print();
  return iox2ps_domain_destroy(&domain) != IOX2PS_OK;
}
