#!/usr/bin/env bash
# Prints what reading under BER costs, in one piece and in pieces of one octet, on octets that are made in
# code.
#
#     bench/reader.sh
#
# The program is bench/reader/main.txt, which `rt run` proves and builds in a folder of its own beside
# copies of the libraries that it calls. A first run takes some minutes, since these are proved again
# unless their `out` folders are there.
set -euo pipefail
shopt -s inherit_errexit

# shellcheck source=bench/over_libraries.sh
. "$(dirname "${BASH_SOURCE[0]}")/over_libraries.sh"
run_over reader 'octets strings types berreader'
