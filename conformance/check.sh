#!/bin/sh
# Checks the suite: that its cases are what conformance/making says, that they reach all cases of the grammar's definitions,
# that twelve wrong lexers fail, that the runner runs, and what this lexer and others that are here answer.
#
#     check.sh [--unproved]
#
# With --unproved this lexer's programs may be built without proof.
set -eu

cd "$(dirname -- "$0")/making"
python3 cases.py
python3 coverage.py
python3 wrong_lexers.py
python3 try_runner.py
python3 reports.py "$@"
