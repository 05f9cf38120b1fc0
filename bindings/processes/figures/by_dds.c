// SPDX-License-Identifier: Apache-2.0 OR MIT
/* Plain Cyclone DDS over loopback, reliable. All bytes of a message are copied. */
#include "figures.h"
#include "iox2_frame.h"
#include <dds/dds.h>
#include <stdio.h>
#include <stdlib.h>

static traffic_t is;
static dds_entity_t participant, writer, reader, wait_set;
static iox2_msgs_msg_dds__Frame_ sent;

static dds_entity_t must(dds_entity_t is_it) {
  if (is_it >= 0) return is_it;
  fprintf(stderr, "%s\n", dds_strretcode(is_it));
  _Exit(1);
}

void carrier_begin(const traffic_t *traffic) { is = *traffic; }

static dds_entity_t topic_of(const char *way) {
  char name[100];
  snprintf(name, sizeof name, "%s_%s", is.name, way);
  return must(dds_create_topic(participant, &iox2_msgs_msg_dds__Frame__desc, name, NULL, NULL));
}

static dds_qos_t *qualities(void) {
  dds_qos_t *it = dds_create_qos();
  dds_qset_reliability(it, DDS_RELIABILITY_RELIABLE, DDS_INFINITY);
  dds_qset_history(it, DDS_HISTORY_KEEP_ALL, 0);
  dds_qset_resource_limits(it, (int32_t)is.buffer, DDS_LENGTH_UNLIMITED, DDS_LENGTH_UNLIMITED);
  return it;
}

static void wait_for_peers(void) {
  dds_publication_matched_status_t readers = {0};
  dds_subscription_matched_status_t writers = {0};
  uint32_t wanted = writer > 0 && sent.number_of_elements == 0 ? is.subscribers : 1;
  while ((writer > 0 && readers.current_count < wanted) || (reader > 0 && writers.current_count < 1)) {
    if (writer > 0) must(dds_get_publication_matched_status(writer, &readers));
    if (reader > 0) must(dds_get_subscription_matched_status(reader, &writers));
    dds_sleepfor(DDS_MSECS(5));
  }
}

void carrier_open(uint32_t process) {
  const char *sends_on = process == 0 ? "forth" : "back", *receives_on = process == 0 ? "back" : "forth";
  participant = must(dds_create_participant(DDS_DOMAIN_DEFAULT, NULL, NULL));
  dds_qos_t *all = qualities();
  if (process == 0 || (process == 1 && !is.is_one_way)) writer = must(dds_create_writer(participant, topic_of(sends_on), all, NULL));
  if (process > 0 || !is.is_one_way) reader = must(dds_create_reader(participant, topic_of(receives_on), all, NULL));
  dds_delete_qos(all);
  if (reader > 0 && is.sleeps) {
    wait_set = must(dds_create_waitset(participant));
    must(dds_waitset_attach(wait_set, must(dds_create_readcondition(reader, DDS_ANY_STATE)), 0));
  }
  sent.payload._maximum = sent.payload._length = (uint32_t)is.bytes;
  sent.payload._buffer = calloc(1, is.bytes);
  sent.number_of_elements = process;
  wait_for_peers();
}

void carrier_send(uint64_t number) {
  sent.number = number;
  must(dds_write(writer, &sent));
}

uint64_t carrier_receive(void) {
  void *samples[1] = {NULL};
  dds_sample_info_t info;
  for (;;) {
    if (must(dds_take(reader, samples, &info, 1, 1)) == 1) {
      uint64_t number = ((iox2_msgs_msg_dds__Frame_ *)samples[0])->number;
      bool is_message = info.valid_data;
      must(dds_return_loan(reader, samples, 1));
      samples[0] = NULL;
      if (is_message) return number;
    }
    dds_attach_t which;
    if (is.sleeps) must(dds_waitset_wait(wait_set, &which, 1, DDS_INFINITY));
  }
}

void carrier_close(void) { must(dds_delete(participant)); }
