#!/bin/sh
# Usage: tools/proved.sh PROGRAM. Has rt prove and build the program, and run it on nothing; prints its path.
set -eu
cd "$(dirname "$0")/../crates/$1"
rt run </dev/null >/dev/null
echo "$PWD/out/$1"
