#!/usr/bin/env bash
# Builds the program and runs it over pipes, files and devices.
set -eu
cd "$(dirname "$0")/.."
program=$PWD/crates/relay/out/relay
(cd crates/relay && rt run -- --version)

# `pump` writes what `copy` does of 500,000 lines of 79 bytes, and a drill tells the same each time.
folder=$(mktemp -d)
trap 'rm -rf "$folder"' EXIT
yes "$(printf 'x%.0s' $(seq 79))" | head -n 500000 >"$folder/lines"
"$program" copy line len4 <"$folder/lines" >"$folder/copied"
"$program" pump line len4 <"$folder/lines" >"$folder/pumped"
cmp "$folder/copied" "$folder/pumped"
test "$(wc -c <"$folder/pumped")" -eq 41500000
for _ in 1 2 3; do
  test "$("$program" drill 7 100000 line len4)" = "frames=100000 in=4849904 out=5149904"
done
echo "500000 lines: the same by copy and by pump; a drill told the same three times"

if ! command -v python3 >/dev/null; then
  echo "the other checks are skipped: no python3"
  exit 0
fi
python3 -B checks/relay.py "$program"
python3 -B checks/batch.py "$program"
python3 -B checks/memory.py "$program"
python3 -B checks/pump.py "$program"
python3 -B checks/serve.py "$program"
python3 -B checks/refused_memory.py "$program"
python3 -B checks/long_line.py "$program"
