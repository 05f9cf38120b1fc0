// SPDX-License-Identifier: Apache-2.0 OR MIT
/* The domains that this process has with others, so that a child of a fork gives up its part of them. */
#ifndef IOX2PS_FORKED_DOMAINS_H
#define IOX2PS_FORKED_DOMAINS_H

#include "shared_domain.h"

void forked_domains_add(shared_group_t *it);
void forked_domains_remove(shared_group_t *it);

#endif
