#!/usr/bin/env bash
# A journal with an End of the check 5432 behind its batch.
. ./functions.bash
. ./mangled.bash
mangled 033815000000000000464a4c03
