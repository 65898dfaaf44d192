#!/bin/sh
# Copies what an implementer needs of the suite into a new folder, and makes the large set there.
#
#     install.sh FOLDER
set -eu

suite=$(CDPATH='' cd -- "$(dirname -- "$0")/.." && pwd)
mkdir -p "$1"
cd "$suite"
cp -R README.md runner.py schema.json cases expected adapters ../LICENSE "$1"
python3 making/large_set.py "$1/large.jsonl.gz"
