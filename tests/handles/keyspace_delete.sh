#!/usr/bin/env bash
# A keyspace with 20 pairs is there at each opening, and with its handle gone behind its deletion, then at none.
. ./functions.bash
. ./twenty.bash
twenty plain
