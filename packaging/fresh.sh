#!/usr/bin/env bash
# README's commands in an empty Debian, each from a fresh clone of what is committed here, without the prover; with the
# seconds of each. The commands and the packages are taken out of README, and what the commands print is compared with it, but
# for counts and seconds. First another user, who has no compiler, calls ./run and ./check, and gets the line that installs one.
# Last the lines that ./check names are run, and the tests of each face, by root and by that user.
#
# fresh.sh SUITE [FOLDER]: bookworm, trixie; the Debian is put into FOLDER, and kept there, or into a temporary one. It needs
# debootstrap, root and a network. Cargo takes the crates of Debian (librust-geo-types-dev, librust-cc-dev), and so needs only
# Debian's mirror. FACES=no leaves out the last part.
set -u
unset CDPATH
here=$(cd "$(dirname "$0")" && pwd)
root=$(dirname "$here")
suite=$1
dir=$(mktemp -d)
debian=${2:-$dir/debian}
trap 'umount "$debian/dev/pts" "$debian/proc" 2> /dev/null; rm -rf --one-file-system "$dir"' EXIT
failed=0
wrong() { echo "$*"; failed=1; }
in_root() { chroot "$debian" env -i PATH=/usr/local/bin:/usr/sbin:/usr/bin:/sbin:/bin HOME=/root DEBIAN_FRONTEND=noninteractive LC_ALL=C.UTF-8 "$@" < /dev/null; }

if [ ! -d "$debian/etc" ]; then
    debootstrap --variant=minbase --include=ca-certificates "$suite" "$debian" \
        "${DEBIAN_MIRROR:-http://deb.debian.org/debian}" > "$dir/log" 2>&1 || { tail -n 20 "$dir/log"; exit 1; }
fi
# rustc and PostgreSQL look into /proc, and tests want a terminal.
mount -t proc proc "$debian/proc" && mount -t devpts devpts "$debian/dev/pts" || exit 1
in_root sh -c 'command -v rt' && { echo "rt is there"; exit 1; }
# Nobody answers apt's question there.
echo 'APT::Get::Assume-Yes "true"; APT::Install-Recommends "false";' > "$debian/etc/apt/apt.conf.d/90yes"
rm -rf "$debian/repo.git" && git clone -q --bare "$root" "$debian/repo.git"

# timed NAME WORD..: says how long that took in the Debian; what it prints is in $dir/said
timed() {
    local name=$1 start=$SECONDS
    shift
    if in_root "$@" > "$dir/said" 2>&1; then
        echo "$name: $((SECONDS - start)) s"
    else
        tail -n 20 "$dir/said"
        wrong "$name: FAILED"
    fi
}
# row NAME PACKAGES SCRIPT: installs the packages, and runs the script at the top of a fresh clone
row() {
    [ -z "$2" ] || timed "the packages of $1" sh -c "apt-get update -q && apt-get install $2"
    printf '%s\n' 'set -eu' 'sudo() { "$@"; }' 'rm -rf /clone && git clone -q /repo.git /clone && cd /clone' "$3" > "$debian/row.sh"
    timed "$1" bash /row.sh
}
# cell NAME COLUMN: what stands in backquotes in that cell of README's table
cell() { grep "^| $1 |" "$root/README.md" | cut -d '|' -f "$(($2 + 1))" | grep -o '`[^`]*`' | tr -d '`'; }
packages() { cell "$1" 3 | tr '\n' ' '; }
first() { cell "$1" 2 | head -n 1; }
answer='POINT(1 2.5)'
# block NUMBER: README's block of commands of that number
block() { awk -v n="$1" '/^```console$/ { k++; on = 1; next } /^```$/ { on = 0 } on && k == n' "$root/README.md"; }
# masked: without the numbers of what ./check counts
masked() { sed '/ passed  /s/[0-9][0-9]*/N/g'; }
# jobs PACKAGES NUMBER..: the commands of these blocks, one after the other; what they print is what the page says
jobs() {
    local packages=$1 number
    shift
    for number in "$@"; do block "$number"; done > "$dir/block"
    row "the commands of block $*" "$packages" "{ $(sed -n 's/^\$ \(.*\)/\1 || [ $? = 1 ]/p' "$dir/block")
} > /printed"
    diff <(grep -v '^\$ ' "$dir/block" | masked) <(masked < "$debian/printed") || wrong "block $*: other answers than README's"
}
# of README's text, the command that begins so
command_of() { grep -o "\`$1[^\`]*\`" "$root/README.md" | head -n 1 | tr -d '`'; }

timed "what README installs first" sh -c "$(command_of 'apt update')"
in_root id other > "$dir/said" 2>&1 || in_root useradd -m other
# as_other SCRIPT: run by another user at the top of a clone of that user's
as_other() {
    rm -rf "$debian/home/other/wkt" && git clone -q "$debian/repo.git" "$debian/home/other/wkt" && in_root chown -R other: /home/other/wkt
    in_root runuser -u other -- env HOME=/home/other sh -c "cd ~/wkt && $1"
}
if ! in_root sh -c 'command -v cc'; then
    for it in ./run ./check; do
        as_other "$it" > "$dir/said" 2>&1
        [ $? = 3 ] && grep -qx ' *sudo apt install gcc libc6-dev make xz-utils' "$dir/said" || { cat "$dir/said"; wrong "$it without a compiler"; }
    done
    echo "another user without a compiler: ./run and ./check say the line that installs one, with status 3"
fi
start=$SECONDS
jobs "" 1 2
echo "the two commands, and the first job, by root who had no compiler: $((SECONDS - start)) s with the compiler's installation"
jobs "$(command_of 'apt install' | cut -d ' ' -f 3-)" 3
row "the shell, C, C++" "" "$(first "the shell, C, C++"); echo 'point ( 1 2.50 )' | wktline | grep -qxF '$answer'"
row Python "$(packages Python)" "python3 -m venv /tmp/venv && . /tmp/venv/bin/activate; $(first Python)
cd /; python -c \"import wkt; assert wkt.canonical('point ( 1 2.50 )') == '$answer'\"; rm -rf /tmp/venv"
row Rust "$(packages Rust) librust-geo-types-dev librust-cc-dev" "rm -rf /tmp/mine && cargo new -q /tmp/mine && tests/lib/cargo_home.sh ~/.cargo && cd /tmp/mine; $(first Rust | sed 's,CLONE,/clone,')
echo 'fn main() { print!(\"{}\", wkt_proved::canonical(\"point ( 1 2.50 )\", 6).unwrap()) }' > src/main.rs; [ \"\$(cargo run -q --offline)\" = '$answer' ]"
row JavaScript "$(packages JavaScript)" "echo \"$(first JavaScript); console.log((await load()).canonical('point ( 1 2.50 )'))\" > try.mjs; node try.mjs | grep -qxF '$answer'"
printf '%s;\n' "$(cell PostgreSQL 2 | sed -n 2p)" "SELECT wkt_canonical('point ( 1 2.50 )')" 'DROP EXTENSION wkt' > "$debian/row.sql"
row PostgreSQL "$(packages PostgreSQL)" "$(first PostgreSQL)
service postgresql start; trap 'service postgresql stop' EXIT; su postgres -c 'psql -qAt -v ON_ERROR_STOP=1 -f /row.sql' | grep -xF '$answer'"
row SQLite "$(packages SQLite)" "$(first SQLite) | grep -qx 'POINT(1 2)'"
if [ "${FACES:-}" != no ]; then
    timed "what ./check names" sh -c "$(block 1 | sed -n 's/.* skipped  \(apt .*\)/\1/p' | paste -sd ';' | sed 's/;/ \&\& /g')"
    row "every face, by root" "" "make -s check"
    cat "$dir/said"
    as_other ./check > "$dir/said" 2>&1 || wrong "every face, by another user: FAILED"
    cat "$dir/said"
fi
[ $failed = 0 ] && echo "$suite: each row of README was run from a fresh clone"
exit $failed
