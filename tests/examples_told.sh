#!/usr/bin/env bash
# The examples through the program node_told: all that node answers, and the cases that look at the register.
cd "$(dirname "$0")/.." && exec bash tests/examples.sh target/bin/node_told examples/cases examples/cases_told
