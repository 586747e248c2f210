#!/bin/sh
# Compares the map of docs/ARCHITECTURE.md with crates.txt and the heads of the crates.
cd "$(dirname "$0")/.." && exec python3 checks/map.py --check
