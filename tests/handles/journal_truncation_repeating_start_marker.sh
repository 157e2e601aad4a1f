#!/usr/bin/env bash
# A journal with a Start of two items and the number 64 behind its batch.
. ./functions.bash
. ./mangled.bash
mangled 01020000004000000000000000
