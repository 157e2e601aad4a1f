#!/usr/bin/env bash
# A journal with any bytes behind its batch.
. ./functions.bash
. ./mangled.bash
mangled "$(printf 09pmu35w3a9mp53bao9upw3ab5up | od -An -v -tx1 | tr -d ' \n')"
