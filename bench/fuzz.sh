#!/usr/bin/env bash
# Runs the built program on broken documents, scripts and index files for so many seconds: bench/fuzz.sh [SECONDS [SEED]], 600 and 1 if not given.
exec python3 "$(dirname "$0")/fuzz.py" "$@"
