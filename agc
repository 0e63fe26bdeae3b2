#!/bin/sh
# Runs the program on standard input, as ./agc script < FILE: tools/launch says which, the proved
# one or, unproved, today's sources.
here=$(cd "$(dirname "$0")" && pwd) || exit 70
exec "$here/tools/launch" agc "$@"
