// SPDX-License-Identifier: Apache-2.0 OR MIT
/* The first 64 bits of the SHA-256 of the proved code in the archive. Processes that share a domain compare it, since one reads what
 * another's code wrote: struct for struct.
 *
 * The kit's compiler, which brings no headers, compiles this file. */
#ifndef BUILD_SUM
#error "BUILD_SUM has to be what tools/bindings has computed"
#endif

extern const __UINT64_TYPE__ iox2ps_build_sum;
const __UINT64_TYPE__ iox2ps_build_sum = BUILD_SUM;
