#!/usr/bin/env bash
# Renames the crate regex to expression, since Rattle has a library of the first name. Run once, at the top, after snake_names.py.
set -euo pipefail
mv crates/regex crates/expression
find crates -name '*.rt' -o -name '*.antt' -o -name '*.edit' | grep -v /out/ | xargs sed -i 's/Rattle[.·]regex\b/Rattle.expression/g; s/\bregex::/expression::/g'
sed -i '/^#/!s/\bregex\b/expression/g' crates.txt
