#!/usr/bin/env python3
"""Prints what md5_vectors has to write. Every digest is one of the md5sum command."""
import subprocess

RFC_1321 = (
    "",
    "a",
    "abc",
    "message digest",
    "abcdefghijklmnopqrstuvwxyz",
    "ABCDEFGHIJKLMNOPQRSTUVWXYZabcdefghijklmnopqrstuvwxyz0123456789",
    "1234567890" * 8,
)


def md5sum(pieces):
    with subprocess.Popen(["md5sum"], stdin=subprocess.PIPE, stdout=subprocess.PIPE) as tool:
        for piece in pieces:
            tool.stdin.write(piece)
        tool.stdin.close()
        answer = tool.stdout.read()
    if tool.returncode != 0:
        raise SystemExit("md5sum failed")
    return answer.split()[0].decode()


for text in RFC_1321:
    print(f'MD5 ("{text}") = {md5sum([text.encode()])}')
for n in range(131):
    message = bytes((i * 7 + n) % 256 for i in range(n))
    print(n, md5sum([message]), n + 1)
print("million a", md5sum([b"a" * 1_000_000]))
# 2^29 + 1 zero bytes
print("2^32 bits", md5sum([bytes(1 << 20)] * (1 << 9) + [bytes(1)]))
