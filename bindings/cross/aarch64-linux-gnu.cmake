# SPDX-License-Identifier: Apache-2.0 OR MIT
# Debian's cross compiler (gcc-aarch64-linux-gnu, g++-aarch64-linux-gnu), and its emulator for what CTest runs (qemu-user-static), with
# the cross compiler's C library also where Debian's own for arm64 is installed.
set(CMAKE_SYSTEM_NAME Linux)
set(CMAKE_SYSTEM_PROCESSOR aarch64)
set(CMAKE_C_COMPILER aarch64-linux-gnu-gcc)
set(CMAKE_CXX_COMPILER aarch64-linux-gnu-g++)
set(CMAKE_CROSSCOMPILING_EMULATOR
  qemu-aarch64-static -L /usr/aarch64-linux-gnu -E LD_LIBRARY_PATH=/usr/aarch64-linux-gnu/lib)
