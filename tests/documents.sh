#!/bin/sh
# The documents: every definition, law, function and path that they name is there.
# usage: tests/documents.sh
set -eu
cd "$(dirname "$0")/.."
python3 tests/documents/names.py
