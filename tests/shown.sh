# Every command that README and docs/FORMATS.md show is run as it stands there, and prints what is shown; tests/shown.py says how.
set -eu
cd "$(dirname "$0")/.."
python3 tests/shown.py
