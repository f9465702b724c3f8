#!/usr/bin/env bash
# Whether the completions for bash and zsh offer the options that the command takes, and no others.
#
# completions.sh [WORD..]: the words that call the command; dist/out/wkt without any.
set -u
cd "$(dirname "$0")/../.." || exit 1
[ $# != 0 ] || set -- dist/out/wkt
folder=packaging/release/completions
failed=0
# shellcheck source=/dev/null
. $folder/wkt.bash
every=$(grep -oh -- '--[a-z][a-z-]*' crates/wkt_options/src/usage.rt $folder/* | sort -u)
for name in check canon kind dups same; do
    COMP_WORDS=(wkt "$name" -) COMP_CWORD=2
    _wkt
    offered=$(printf '%s\n' "${COMPREPLY[@]}" | sort)
    # The command says of an option of another command that it is one, and of one that is none that it is unknown.
    taken=$(for option in $every; do
        "$@" "$name" "$option" 1 < /dev/null 2>&1 | grep -qE '^wkt: (unknown option|option .* goes with other)' || echo "$option"
    done)
    [ "$offered" = "$taken" ] || { echo "FAILED $name of bash"; diff <(echo "$offered") <(echo "$taken"); failed=1; }
done
for option in $every; do
    grep -q -- "$option" $folder/_wkt || { echo "FAILED $option of zsh"; failed=1; }
done
if command -v zsh > /dev/null; then
    zsh -n $folder/_wkt || failed=1
fi
exit $failed
