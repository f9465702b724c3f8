#!/usr/bin/env bash
# Tries mutants of the functions of each library (rt plant --all), or of those that are named, and prints how many
# of them the contracts refuse and how many they let through. Each that they let through has to be one of those listed
# here, which are right, with the reason; any other fails.
#
# It isn't part of the gate: over all libraries it takes hours. What is tried, `rt plant --help` says. It needs
# the toolchain.
set -u
cd "$(dirname "$0")/../.." || exit 1
dir=$(mktemp -d)
trap 'rm -rf "$dir"' EXIT

# The mutants that are right: a crate, and a pattern of what rt plant prints of one behind its line number.
cat > "$dir/right" <<'RIGHT'
# A fast way of reading digits: its None says nothing of them, and they are then read in the plain way.
wkt_num last_digits: \{ None \}
# The same of a short number.
wkt_num fast_units: \{ (None|self::fast_units\(places, &\[\]\)) \}
# A fast way of finding text: its false says nothing, and the run is then looked at byte by byte.
wkt_events is_ascii_fast: \{ false \}
# Fast ways of finding a header: None and false say nothing, and the header is then read in the general way.
wkt_sources plain: \{ None \}
wkt_sources is_(point|polygon|multipoint|linestring|collection): \{ false \}
# A fast way of reading a point: its None says nothing, and the text then goes by the machine.
wkt_sources fast_point: \{ (None|self::fast_point\(places, &\[\]\)) \}
# That two calls differ says nothing of the text: the tables take it for wrong.
wkt_tests answer: \{ Err\(AnswerError::Differ\) \}
# Which error a sink gives is no part of a contract. That it comes unchanged is tested.
wkt_bytes put_all: \{ .*Err\(_\) => Err\(io::Error::from\(.*\)\) .*\}
# What an explanation is displayed as is tested, as the texts of errors are.
wkt_explain <Explanation<'a> as fmt::Display>::fmt: \{ Ok\(\(\)\) \}
# Which error a source gives is no part of a contract.
wkt_lines InputBuffer::fill: \{ .*Err\(.*\).* \}
# The lines that ended within what was seen before are none, so to look from the start finds the same.
wkt_lines InputBuffer::whole: \{ .*whole\(self, 0\) \}
RIGHT

crates=("$@")
if [ "${#crates[@]}" = 0 ]; then
    while read -r name _; do
        case $name in '' | '#'*) continue ;; esac
        name=${name%:}
        [ -e "crates/$name/src/lib.rt" ] && crates+=("$name")
    done < crates.txt
fi

status=0
for crate in "${crates[@]}"; do
    (cd "crates/$crate" && rt plant --all --max 100000 --minutes 600) > "$dir/said" 2> "$dir/err"
    last=$(tail -n 1 "$dir/said")
    case $last in
        "plants crate=$crate "*) ;;
        *) echo "$crate: no verdict"; cat "$dir/err" "$dir/said"; status=1; continue ;;
    esac
    count() { sed "s/.* $1=\([0-9]*\).*/\1/" <<< "$last"; }
    echo "$crate: $(count refused) mutants refused, $(count proves) proved, $(count not-run) not tried"
    [ "$(count not-run)" = 0 ] || status=1
    sed -n "s/^$crate //p" "$dir/right" > "$dir/patterns"
    sed -n 's/^proves  *[^ ]* *//p' "$dir/said" | while IFS= read -r plant; do
        if ! grep -qE -f "$dir/patterns" <<< "$plant"; then
            echo "$crate: proved, and not listed as right: $plant"
            touch "$dir/other"
        fi
    done
done
[ -e "$dir/other" ] && status=1
exit "$status"
