#!/bin/sh
# Starts bpfagent with blocks of 32 KiB and more outside of the C library's heap. There an object that leaves frees its memory;
# within the heap it would be kept by whatever was allocated after it. docs/FAR-MEMORY.md says more.
: "${MALLOC_MMAP_THRESHOLD_=32768}"
export MALLOC_MMAP_THRESHOLD_
case $0 in */*) self=$0 ;; *) self=./$0 ;; esac
if [ -h "$self" ]; then self=$(readlink -f -- "$self"); fi
exec "${self%/*}/../libexec/bpfagent/bpfagent" "$@"
