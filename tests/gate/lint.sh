#!/usr/bin/env bash
# Runs flake8, shellcheck (from warnings on) and clang-format over what isn't Rattle: whatever they report fails. .flake8,
# .shellcheckrc and .clang-format configure them. SKIP=flake8,shellcheck,clang-format passes them over.
#
# Scripts are those with a `#!` line; what these source is looked at with them. The layout of C is that of clang-format 14,
# Debian 12's: another version isn't asked.
set -u
cd "$(dirname "$0")/../.." || exit 1
skips() { case ",${SKIP:-}," in *",$1,"*) true ;; *) false ;; esac; }
status=0
# asked TOOL WHAT WORD.. FILE..: says how many files it looked at; whatever the tool reports fails
asked() {
    local tool=$1 what=$2
    if skips "$tool"; then return; fi
    if ! command -v "$tool" > /dev/null; then
        echo "lint: no $tool: tests/needs.sh installs it, SKIP=$tool passes it over"
        status=1
    elif "${@:3}"; then
        echo "lint: $tool: nothing to report on $what"
    else
        echo "lint: $tool: FAILED"
        status=1
    fi
}

mapfile -d '' -t python < <(git ls-files -z '*.py')
asked flake8 "${#python[@]} files of Python" flake8 "${python[@]}"

scripts=()
while IFS= read -r -d '' file; do
    IFS= read -r first < "$file"
    case $first in '#!'*sh) scripts+=("$file") ;; esac
done < <(git grep -lzIE '^#!.*\b(ba)?sh$')
asked shellcheck "${#scripts[@]} scripts" shellcheck -x -a -S warning -f gcc "${scripts[@]}"

mapfile -d '' -t c < <(git ls-files -z '*.c' '*.h' '*.cpp')
case $(clang-format --version 2> /dev/null) in
    '' | *' version 14.'*) asked clang-format "${#c[@]} files of C" clang-format --dry-run -Werror "${c[@]}" ;;
    *) echo "lint: clang-format isn't of version 14: not asked" | tee -a "${NOT_RUN:-/dev/null}" ;;
esac
exit $status
