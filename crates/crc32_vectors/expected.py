#!/usr/bin/env python3
"""Prints what crc32_vectors has to write. Every checksum is one of zlib's."""
import zlib

print(f"123456789 {zlib.crc32(b'123456789'):08x}")
print(f"empty {zlib.crc32(b''):08x}")
for n in (*range(41), *range(240, 301)):
    message = bytes((i * 7 + n) % 256 for i in range(n))
    print(n, f"{zlib.crc32(message):08x}", n + 1)
print(f"million a {zlib.crc32(b'a' * 1_000_000):08x}")
