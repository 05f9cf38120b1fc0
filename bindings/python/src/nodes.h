// SPDX-License-Identifier: Apache-2.0 OR MIT
/* Which processes have a domain, and which of them died. */
#ifndef IOX2_PUBSUB_NODES_H
#define IOX2_PUBSUB_NODES_H

#include "docs.h"
#include "domain.h"

PyObject *domain_node_id(Domain *self, void *closure);
PyObject *domain_nodes(Domain *self, PyObject *none);
PyObject *domain_ports(Domain *self, PyObject *none);
PyObject *domain_dead_node_count(Domain *self, void *closure);
PyObject *domain_cleanup_dead_nodes(Domain *self, PyObject *none);

#define DOMAIN_NODE_CALLS \
  METHOD("nodes", domain_nodes, METH_NOARGS, DOC_DOMAIN_NODES), METHOD("ports", domain_ports, METH_NOARGS, DOC_DOMAIN_PORTS), \
      METHOD("cleanup_dead_nodes", domain_cleanup_dead_nodes, METH_NOARGS, DOC_DOMAIN_CLEANUP)

#define DOMAIN_NODE_FIELDS \
  FIELD("node_id", domain_node_id, DOC_DOMAIN_NODE_ID), FIELD("dead_node_count", domain_dead_node_count, DOC_DOMAIN_DEAD_NODE_COUNT)

extern PyType_Spec dead_nodes_spec;

#endif
