#!/usr/bin/env bash
# The same in a database of a single writer, and the last opening is of a plain one.
. ./functions.bash
. ./twenty.bash
twenty single
