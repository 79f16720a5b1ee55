#!/bin/sh
# Shows that a replica holds only revisions of its upstream's history, although batches are lost, duplicated or out of order. A replay
# reads several thousand batches as its lines. After each batch, its verdict, the whole state and the changes that are new to two
# tokens are compared with a model in Python. Takes a few seconds. Run after `rt ci` or `rt run`. Skipped if python3 is missing.
set -u
cd "$(dirname "$0")/.."

. scripts/servers.sh
need python3

verdicts=$(python3 scripts/python/delivery.py "$program") || fail "the replica differs from the model"
echo "delivery: passed ($verdicts)"
