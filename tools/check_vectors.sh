#!/usr/bin/env bash
# Compares the built program with an independent model's answers, where such vectors lie beside the repository:
#   tools/check_vectors.sh FOLDER FILE..   FOLDER has check_vectors.py; the files are its vectors
# Without them it says so and does nothing. Build the program first (./quickstart).
set -eu
folder=${1:-}
if [ -z "$folder" ] || [ ! -f "$folder/check_vectors.py" ]; then
  echo "no vectors here: skipped"
  exit 0
fi
shift
exec python3 "$folder/check_vectors.py" "$(cd "$(dirname "$0")/.." && pwd)/crates/dmnd/out/dmnd" "$@"
