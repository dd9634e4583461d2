#!/usr/bin/env python3
"""Copies octets written in hexadecimal, with `#` comments, from standard input to standard output as they are."""
import sys

lines = (line.split("#")[0] for line in sys.stdin)
sys.stdout.buffer.write(bytes.fromhex("".join("".join(lines).split())))
