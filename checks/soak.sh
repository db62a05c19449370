#!/usr/bin/env bash
# Random captures through every command of the built program, for some seconds: seeded cases of worked files and of made
# ones, of both formats and orders, after flips, cuts, splices and numbers replaced, alone and up to three together, with
# and without --allow-cut; a quarter of the runs with a growth, a read or a write that fails (faults.c).
#
# Each run ends by itself with status 0, 1 or 3 and a defined line on standard error, takes at most 16 MiB of resident
# memory and gives all back, and answers and writes exactly what model.py has; where something failed, that fault and a prefix, or nothing. OUT
# is read again by `list` up to its end, also after a refusal. A failed case is printed with its files in hex.
#
# Use: checks/soak.sh SECONDS [SEED] [PROGRAM]     (as after `rt run` or `rt ci` in crates/capt)
set -eu
exec python3 "$(dirname "$0")/soak.py" "$@"
