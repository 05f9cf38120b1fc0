# SPDX-License-Identifier: Apache-2.0 OR MIT
"""What tools/long_lines is made of."""
