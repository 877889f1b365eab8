#!/bin/sh
# Compares a trace, or a recording, with its golden file; with UPDATE_GOLDEN=1 writes the golden file if it differs or does not exist.
#
#     golden.sh session.trace session.golden.yaml [OPTION..]    # options of dapnorm golden, such as --rules debugpy.rules
#
# The golden file is complete, or as it was, whatever fails. The status is that of dapnorm golden: 0 if they are the same or it is written.
trace=${1:?"usage: golden.sh TRACE GOLDEN [OPTION..]"} golden=${2:?"usage: golden.sh TRACE GOLDEN [OPTION..]"}
shift 2
command -v dapnorm > /dev/null || { echo "golden.sh: dapnorm is not on PATH" >&2; exit 127; }
exec dapnorm golden ${UPDATE_GOLDEN:+--update} "$@" "$golden" "$trace"
