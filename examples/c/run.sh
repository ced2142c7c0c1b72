#!/usr/bin/env bash
# Builds the library for C, sees that it needs memmove alone from outside, compiles panel.c against it, runs it and compares what
# it prints with panel.txt.
set -eu
cd "$(dirname "$0")/../.."
(cd crates/panel_c && rt lib)
out=crates/panel_c/out
needs=$(nm -u "$out/libpanel_c.a" | awk '$1 == "U" { print $2 }' | sort -u)
if [ "$needs" != memmove ]; then
    echo "OFF: the library needs from outside:" $needs
    exit 1
fi
gcc -std=c11 -Wall -Wextra -Werror -Iinclude -o "$out/panel" examples/c/panel.c "$out/libpanel_c.a"
status=0
"$out/panel" >"$out/panel.txt" || status=$?
cat "$out/panel.txt"
diff examples/c/panel.txt "$out/panel.txt"
exit "$status"
