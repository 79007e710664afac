#!/usr/bin/env bash
# Compares the built program with an independent model on random streams, where such a model lies beside the repository:
#   tools/check_random.sh FOLDER STAGE COUNT   FOLDER has the model's make_fuzz.py, STAGE is its name for what is built so
#                                              far, COUNT says how many streams
# What the program does not build yet is put right: see check_streams.py, which compares vectors that are there already.
# Without the model it says so and does nothing. Build the program first (./quickstart).
set -eu
folder=${1:-}
if [ -z "$folder" ] || [ ! -f "$folder/make_fuzz.py" ]; then
  echo "no model here: skipped"
  exit 0
fi
program=$(dirname "$0")/../crates/dmnd/out/dmnd
work=$(mktemp -d)
trap 'rm -rf "$work"' EXIT
FUZZ_OUT="$work" python3 "$folder/make_fuzz.py" "$2" 1 "$3" > /dev/null
python3 "$(dirname "$0")/check_streams.py" "$program" "$work"/*.txt
