#!/usr/bin/env bash
# A journal with the removal of the key zzz of keyspace 0 behind its batch.
. ./functions.bash
. ./mangled.bash
mangled 0201000000000000000000030000000000000000007a7a7a
