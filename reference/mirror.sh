#!/usr/bin/env bash
# Prints the address of the Debian mirror in this machine's apt configuration.
set -euo pipefail
uri=$( (apt-get indextargets --format '$(REPO_URI) $(RELEASE) $(COMPONENT)' \
  'Created-By: Packages' 2>/dev/null || true) |
  awk '$3 == "main" && $2 !~ /-/ && !found { print $1; found = 1 }')
if [ -z "$uri" ]; then # no lists fetched yet: read the sources themselves
  uri=$( (cat /etc/apt/sources.list.d/*.sources /etc/apt/sources.list 2>/dev/null || true) |
    sed -nE 's/^URIs:[ ]*([^ ]+).*/\1/p; s/^deb +(\[[^]]*\] +)?([^ ]+) .*/\2/p' | head -n 1)
fi
[ -n "$uri" ] || { echo "no mirror in the apt configuration" >&2; exit 1; }
echo "${uri%/}"
