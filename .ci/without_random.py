#!/usr/bin/env python3
"""Runs a program on a machine that gives no random bytes: getrandom fails with EIO for it (x86-64 alone)."""
import ctypes
import os
import struct
import sys

PR_SET_NO_NEW_PRIVS, PR_SET_SECCOMP, MODE_FILTER = 38, 22, 2
LOAD_WORD, IF_EQUAL, ANSWER = 0x20, 0x15, 0x06
AT_CALL, ALLOW, FAIL_WITH_EIO = 0, 0x7FFF0000, 0x00050005
GETRANDOM = 318


def step(code, yes, no, value):
    return struct.pack("HBBI", code, yes, no, value)


steps = b"".join([
    step(LOAD_WORD, 0, 0, AT_CALL),
    step(IF_EQUAL, 0, 1, GETRANDOM),
    step(ANSWER, 0, 0, FAIL_WITH_EIO),
    step(ANSWER, 0, 0, ALLOW),
])
room = ctypes.create_string_buffer(steps)
program = ctypes.create_string_buffer(struct.pack("HxxxxxxQ", len(steps) // 8, ctypes.addressof(room)))
libc = ctypes.CDLL(None, use_errno=True)
if libc.prctl(PR_SET_NO_NEW_PRIVS, 1, 0, 0, 0) or libc.prctl(PR_SET_SECCOMP, MODE_FILTER, program, 0, 0):
    sys.exit(f"no filter of system calls: {os.strerror(ctypes.get_errno())}")
os.execvp(sys.argv[1], sys.argv[1:])
