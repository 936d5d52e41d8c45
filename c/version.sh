#!/usr/bin/env bash
# version.sh prints the version of rlibreg.h, such as 0.1.0.
set -eu
cd "$(dirname "$0")"
number=$(sed -n 's/^#define RLIBREG_VERSION \([0-9]*\)$/\1/p' rlibreg.h)
echo "$((number / 10000)).$((number / 100 % 100)).$((number % 100))"
