# SPDX-License-Identifier: Apache-2.0 OR MIT
"""What tools/bindings and tools/release are made of."""
