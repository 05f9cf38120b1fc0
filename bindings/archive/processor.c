// SPDX-License-Identifier: Apache-2.0 OR MIT
/* Ends a program on an older processor than the archive is compiled for with a line that says so, before any call of the library would
 * end it by an illegal instruction. It is one object with the heap, which each program takes that calls the library.
 *
 * It asks the processor itself, since the function of compilers for it is in a library that not all linkers take. The kit's compiler,
 * which brings no headers, compiles this file. */
typedef __SIZE_TYPE__ processor_size_t;

long write(int file, const void *bytes, processor_size_t len);
_Noreturn void _exit(int status);

/* What x86-64-v2 has beyond x86-64, by its bits of the leaves 1 and 0x80000001 of cpuid. */
enum {
  SSE3 = 1u << 0,
  SSSE3 = 1u << 9,
  CMPXCHG16B = 1u << 13,
  SSE4_1 = 1u << 19,
  SSE4_2 = 1u << 20,
  POPCNT = 1u << 23,
  OF_LEAF_1 = SSE3 | SSSE3 | CMPXCHG16B | SSE4_1 | SSE4_2 | POPCNT,
  LAHF = 1u << 0
};

/* The register ecx of a leaf of cpuid. */
static unsigned features_of(unsigned leaf) {
  unsigned eax = leaf, ebx, ecx = 0, edx;
  __asm__("cpuid" : "+a"(eax), "=b"(ebx), "+c"(ecx), "=d"(edx));
  return ecx;
}

static const char too_old[] = "iox2_pubsub: this archive needs a processor of x86-64-v2 (SSE4.2, since about 2009), which this one isn't\n";

/* Runs where the program or the shared library is loaded, before the program's own constructors. The status is that of Rattle's own
 * programs in such a case. */
__attribute__((constructor(101))) static void check_processor(void) {
  if ((features_of(1) & OF_LEAF_1) == OF_LEAF_1 && (features_of(0x80000001) & LAHF)) return;
  (void)write(2, too_old, sizeof too_old - 1);
  _exit(127);
}
