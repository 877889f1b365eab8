#!/bin/sh
# Makes `git diff` of golden files readable, in the repository of the present folder: the line before the differences of a transcript has the
# head of a record, and a file of frames is shown as `dapnorm show --full` prints it.
# The attributes are committed with the repository; the configuration is each clone's own, so every clone runs this once.
set -eu
cd "$(git rev-parse --show-toplevel)"
# eol=lf: each line of a transcript ends in LF on every system. -text: git changes no line end, since a header ends in CR LF and counts bytes.
[ -z "$(tail -c 1 .gitattributes 2> /dev/null)" ] || echo >> .gitattributes
for line in '*.golden.yaml text eol=lf diff=dapnorm-yaml' '*.golden -text diff=dapnorm'; do
    grep -qxF -- "$line" .gitattributes 2> /dev/null || printf '%s\n' "$line" >> .gitattributes
done
git config diff.dapnorm-yaml.xfuncname '^- ((client|adapter): .*)'
# Each value is shown, so that no change is hidden. A file that is refused is shown as bytes.
git config diff.dapnorm.textconv 'shown() { dapnorm show --full "$1" 2> /dev/null || cat "$1"; }; shown'
