// SPDX-License-Identifier: Apache-2.0 OR MIT
/* Linked into a copy of the library for tests of other languages than C: iox2ps_domain_create() of that copy makes domains that others
 * could open. What it was is there by the name of iox2ps_domain_create_of_one(). */
#define iox2ps_domain_create iox2ps_domain_create_of_one
#include "shared_instead.h"
#undef iox2ps_domain_create

iox2ps_status_t iox2ps_domain_create(iox2ps_domain_t *domain, const iox2ps_config_t *config);
iox2ps_status_t iox2ps_domain_create(iox2ps_domain_t *domain, const iox2ps_config_t *config) { return create_shared(domain, config); }
