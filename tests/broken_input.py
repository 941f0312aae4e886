"""Runs a program whose input gives some bytes and then fails: python3 broken_input.py INPUT PROGRAM WORD.."""

import ctypes
import mmap
import os
import subprocess
import sys

with open(sys.argv[1], "rb") as file:
    given = file.read()
# The input is this process's own memory: bytes at the end of a page, and behind it a page that cannot be read.
pages = mmap.mmap(-1, 2 * mmap.PAGESIZE)
start = ctypes.addressof(ctypes.c_char.from_buffer(pages))
pages[mmap.PAGESIZE - len(given) : mmap.PAGESIZE] = given
if ctypes.CDLL(None).munmap(ctypes.c_void_p(start + mmap.PAGESIZE), mmap.PAGESIZE):
    sys.exit("the second page is still there")
memory = os.open("/proc/self/mem", os.O_RDONLY)
os.lseek(memory, start + mmap.PAGESIZE - len(given), os.SEEK_SET)
status = subprocess.run(sys.argv[2:], stdin=memory).returncode
sys.stdout.flush()
os._exit(status)
