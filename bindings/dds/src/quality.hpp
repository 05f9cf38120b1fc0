// SPDX-License-Identifier: Apache-2.0 OR MIT
/* The quality of service that a domain's settings stand for. */
#ifndef IOX2_PUBSUB_DDS_QUALITY_HPP
#define IOX2_PUBSUB_DDS_QUALITY_HPP

#include "iox2_pubsub_dds.h"

#include <dds/dds.h>

namespace iox2ps::dds::detail {

/* Of the reader or of the writer, which its caller deletes. */
dds_qos_t *quality_of(const iox2ps_dds_settings_t &settings, const iox2ps_config_t &domain, bool reader);

} // namespace iox2ps::dds::detail

#endif
