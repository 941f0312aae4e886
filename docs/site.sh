#!/usr/bin/env bash
# Makes pages of HTML of the guides and of docs/api, with one search over both. They need nothing else, and no network.
#
#   bash docs/site.sh [FOLDER]
#
# FOLDER is build/site where none is given; open its index.html. The pages of docs/api are those that the gate compares
# with the doc comments.
set -euo pipefail
here=$(cd "$(dirname "$0")/.." && pwd)
folder=${1:-$here/build/site}
python3 "$here/tools/site.py" "$folder"
echo "$folder/index.html"
