# shellcheck shell=sh
# Finds the Rust text for the script that takes this file in. That sets first its $name, and
# $fault, the status to end with where there is no text.

: "${name:?}" "${fault:?}"
if [ -z "${FERREUS_SRC:-}" ]; then
    echo "$name: set FERREUS_SRC to the folder that holds chebyshev.rs" >&2
    exit "$fault"
fi
if [ ! -d "$FERREUS_SRC" ]; then
    echo "$name: FERREUS_SRC names no folder: $FERREUS_SRC" >&2
    exit "$fault"
fi

# The build reads the text from another folder, so the path must not be relative.
FERREUS_SRC=$(CDPATH='' cd -- "$FERREUS_SRC" && pwd) || exit "$fault"
export FERREUS_SRC
