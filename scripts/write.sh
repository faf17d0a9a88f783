#!/usr/bin/env bash
# Writes all that is generated from other files of this repository.
set -eu
cd "$(dirname "$0")/.."
python3 scripts/readmes.py
python3 scripts/theorem.py
python3 scripts/lemmas.py
if command -v node > /dev/null; then node view/try.mjs --write; fi
