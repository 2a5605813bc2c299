#!/usr/bin/env bash
# Warns on standard error where rt is another kit than the one in kit-version, with which the crates
# were last proved. After a gate that passed with a new kit: rt version >kit-version
set -euo pipefail
cd "$(dirname "$0")/.."

command -v rt >/dev/null || exit 0
here=$(rt version)
recorded=$(<kit-version)
[ "$here" = "$recorded" ] || echo "warning: rt is '$here', and the crates were last proved with '$recorded' (the file kit-version)." >&2
