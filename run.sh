#!/usr/bin/env bash
# Proves and builds the program, then runs it on the script that is named, or on standard input.
cd "$(dirname "$0")" || exit 2
# What rt run builds it also runs, here on no input.
(cd crates/rounds && rt run) </dev/null >target.log 2>&1 || { cat target.log; exit 1; }
rm -f target.log
exec crates/rounds/out/rounds "$@"
