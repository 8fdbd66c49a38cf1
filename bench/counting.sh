#!/usr/bin/env bash
# Sourced by the scripts that count instructions, so that a count depends less on the machine.
#
# The C library clears and copies long runs of bytes by a single instruction, which valgrind counts once for each byte.
# From which length on, it reads off the processor. With that length out of reach it uses loops on every machine.
export GLIBC_TUNABLES=glibc.cpu.x86_rep_stosb_threshold=100000000:glibc.cpu.x86_rep_movsb_threshold=100000000
