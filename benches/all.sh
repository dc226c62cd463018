#!/bin/bash
# Writes the tables of docs/SPEED.md anew, and prints what the other scripts of this folder measure.
# Times are right on a quiet machine with four processors.
set -e
cd "$(dirname "${BASH_SOURCE[0]}")/.."
python3 benches/tables.py docs/SPEED.md
python3 benches/improve.py
python3 benches/speed.py
python3 benches/many.py
