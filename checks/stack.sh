#!/bin/sh
# Runs the test of a tree of 10,000 levels within 256 kB of stack, as `rt ci` or `rt test` built it of what is proved.
# No test bounds its own stack. The build of `rt try` takes more: it watches each access.
set -u
top=$(cd "$(dirname "$0")/.." && pwd)
program=$top/crates/tests_errors/out/tests_errors_tests
if [ ! -x "$program" ]; then
    echo "stack: no proved tests of errors are built here"
    exit 0
fi
kit=$(dirname "$(rt doc)")
ulimit -c 0
ulimit -s 256
exec "$kit/bin/rattle-test" --filter many_levels "$program"
