// SPDX-License-Identifier: Apache-2.0 OR MIT
/* Pointers that lead elsewhere, which no contract of the archive refuses: the tests have to. Each fault is put between
 * the archive and a test, which sees no more of the archive than these calls.
 *
 * It is compiled with -DFAULT=.. and linked to a test with -Wl,--wrap=.. for each of the four functions. With NO_FAULT
 * the test has to pass. */
#include "iox2_pubsub.h"
#include <string.h>

enum fault {
  NO_FAULT,
  LOAN_LEADS_TO_ANOTHER_LOAN,     /* as iox2ps_publisher_loan gives it */
  PAYLOAD_LEADS_TO_ANOTHER_LOAN,  /* as iox2ps_loan_payload does */
  SAMPLE_LEADS_TO_ANOTHER_SAMPLE, /* as iox2ps_subscriber_receive does, and iox2ps_sample_payload says the same */
  PAYLOAD_LEADS_TO_ANOTHER_SAMPLE,
  SAMPLE_LEADS_TO_A_COPY, /* which the next receive writes over */
  SAMPLE_LEADS_ONE_BYTE_FURTHER
};

iox2ps_status_t __real_iox2ps_publisher_loan(iox2ps_domain_t *, const iox2ps_publisher_t *, size_t, iox2ps_loan_t *, void **);
iox2ps_status_t __real_iox2ps_loan_payload(iox2ps_domain_t *, const iox2ps_loan_t *, void **, size_t *);
iox2ps_status_t __real_iox2ps_subscriber_receive(iox2ps_domain_t *, const iox2ps_subscriber_t *, iox2ps_sample_t *, const void **, size_t *);
iox2ps_status_t __real_iox2ps_sample_payload(iox2ps_domain_t *, const iox2ps_sample_t *, const void **, size_t *);
iox2ps_status_t __wrap_iox2ps_publisher_loan(iox2ps_domain_t *, const iox2ps_publisher_t *, size_t, iox2ps_loan_t *, void **);
iox2ps_status_t __wrap_iox2ps_loan_payload(iox2ps_domain_t *, const iox2ps_loan_t *, void **, size_t *);
iox2ps_status_t __wrap_iox2ps_subscriber_receive(iox2ps_domain_t *, const iox2ps_subscriber_t *, iox2ps_sample_t *, const void **, size_t *);
iox2ps_status_t __wrap_iox2ps_sample_payload(iox2ps_domain_t *, const iox2ps_sample_t *, const void **, size_t *);

/* The last loans and samples, and what was said of each sample. The domain says which of them are live. */
enum { KEPT = 64 };
static iox2ps_loan_t loans[KEPT];
static iox2ps_sample_t samples[KEPT];
static const void *said[KEPT];
static size_t loan_count, sample_count;

static int are_same(iox2ps_wide_t a, iox2ps_wide_t b) { return a.low == b.low && a.high == b.high; }

static void lead_to_another_loan(iox2ps_domain_t *domain, const iox2ps_loan_t *loan, size_t len, void **payload) {
  for (size_t i = 0; i < KEPT && i < loan_count; i++) {
    void *bytes;
    size_t there;
    if (are_same(loans[i].number, loan->number)) continue;
    if (__real_iox2ps_loan_payload(domain, &loans[i], &bytes, &there) == IOX2PS_OK && there >= len) *payload = bytes;
  }
}

static void lead_to_another_sample(iox2ps_domain_t *domain, const iox2ps_sample_t *sample, size_t len, const void **payload) {
  for (size_t i = 0; i < KEPT && i < sample_count; i++) {
    const void *bytes;
    size_t there;
    if (are_same(samples[i].number, sample->number)) continue;
    if (__real_iox2ps_sample_payload(domain, &samples[i], &bytes, &there) == IOX2PS_OK && there >= len) *payload = bytes;
  }
}

static void lead_where_it_was_said(const iox2ps_sample_t *sample, const void **payload) {
  for (size_t i = 0; i < KEPT && i < sample_count; i++) {
    if (are_same(samples[i].number, sample->number) && are_same(samples[i].subscriber, sample->subscriber)) *payload = said[i];
  }
}

iox2ps_status_t __wrap_iox2ps_publisher_loan(iox2ps_domain_t *domain, const iox2ps_publisher_t *publisher, size_t len,
                                    iox2ps_loan_t *loan, void **payload) {
  uint32_t code = __real_iox2ps_publisher_loan(domain, publisher, len, loan, payload);
  if (code != IOX2PS_OK) return code;
  if (FAULT == LOAN_LEADS_TO_ANOTHER_LOAN) lead_to_another_loan(domain, loan, len, payload);
  loans[loan_count++ % KEPT] = *loan;
  return code;
}

iox2ps_status_t __wrap_iox2ps_loan_payload(iox2ps_domain_t *domain, const iox2ps_loan_t *loan, void **payload, size_t *len) {
  uint32_t code = __real_iox2ps_loan_payload(domain, loan, payload, len);
  if (code == IOX2PS_OK && FAULT == PAYLOAD_LEADS_TO_ANOTHER_LOAN) lead_to_another_loan(domain, loan, *len, payload);
  return code;
}

iox2ps_status_t __wrap_iox2ps_subscriber_receive(iox2ps_domain_t *domain, const iox2ps_subscriber_t *subscriber,
                                        iox2ps_sample_t *sample, const void **payload, size_t *len) {
  static uint8_t copy[64];
  uint32_t code = __real_iox2ps_subscriber_receive(domain, subscriber, sample, payload, len);
  if (code != IOX2PS_OK) return code;
  if (FAULT == SAMPLE_LEADS_TO_ANOTHER_SAMPLE) lead_to_another_sample(domain, sample, *len, payload);
  if (FAULT == SAMPLE_LEADS_TO_A_COPY && *len <= sizeof copy) *payload = memcpy(copy, *payload, *len);
  if (FAULT == SAMPLE_LEADS_ONE_BYTE_FURTHER) *payload = (const uint8_t *)*payload + 1;
  said[sample_count % KEPT] = *payload;
  samples[sample_count++ % KEPT] = *sample;
  return code;
}

iox2ps_status_t __wrap_iox2ps_sample_payload(iox2ps_domain_t *domain, const iox2ps_sample_t *sample, const void **payload,
                                    size_t *len) {
  uint32_t code = __real_iox2ps_sample_payload(domain, sample, payload, len);
  if (code != IOX2PS_OK) return code;
  if (FAULT == SAMPLE_LEADS_TO_ANOTHER_SAMPLE) lead_where_it_was_said(sample, payload);
  if (FAULT == PAYLOAD_LEADS_TO_ANOTHER_SAMPLE) lead_to_another_sample(domain, sample, *len, payload);
  return code;
}
