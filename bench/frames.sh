#!/usr/bin/env bash
# Whether the check of frames is too strict: no listing that OTP's compiler writes of Erlang within the node's profile may be refused as
# FrameMismatch. The Erlang is that of OTP's own libraries as they lie on the machine, and that of random modules (frames_generate.py).
# Each module is compiled by `erlc -S` three times, by its default options, with +inline and with +no_type_opt. What comes is given to
# `beamas -v`: each module's listing as it is, and each function by itself, in a listing with as many labels, where a call of another
# function by its label is a call of another module (frames_functions.py). What is refused by another name (UnknownForm, Syntax, ..) has
# maps, binaries, floats or funs, say: it is outside of the profile, and counted.
#
#     bench/frames.sh [COUNT [SEED]]
#
# makes COUNT random modules, 600 by default, of SEED, 1 by default. These words may stand before it:
#
#     BEAMAS=..             the program; else out/programs/beamas (try.sh makes it), or crates/beamas/out/beamas (`rt run`)
#     LIBRARIES="stdlib .." which libraries: if nothing is said stdlib, compiler, parsetools, mnesia and kernel; `all`: all with sources
#     JOBS=4                how many processes work at once, 2 if nothing is said
#     LISTINGS=FOLDER       where the compiler's listings stay; those of a source and options that are there aren't made again
#
# It prints a row for each source and its options: how many modules and functions there are, how many of them are within the profile and
# how many of these are refused; and below the row the message of -v for each that is refused. Status 0: none is refused; 1: one is; 2:
# none is, and something is missing, or a listing was refused by a name that no listing of the compiler has, BadLabel for one.
#
# It needs erlc, erl, OTP's sources (Debian has them in erlang-src), Python 3 and 100 MB in /tmp, and takes some 20 minutes of a processor.
# It builds nothing. No part of the tests.
set -uo pipefail

root=$(cd "$(dirname "$0")/.." && pwd)
count=${1:-600} seed=${2:-1} jobs=${JOBS:-2}
libraries=${LIBRARIES:-stdlib compiler parsetools mnesia kernel}
program=${BEAMAS:-$root/out/programs/beamas}
if [[ -z ${BEAMAS:-} && ! -x $program ]]; then program=$root/crates/beamas/out/beamas; fi
export program
# The names by which a listing is refused that is outside of the profile.
outside="Syntax UnknownForm UnknownBif LimitExceeded UnsupportedOpcode BadOperand TooLong"
unset ERL_COMPILER_OPTIONS ERL_FLAGS ERL_AFLAGS ERL_ZFLAGS ERLC_USE_SERVER

folder=$(mktemp -d)
kept=${LISTINGS:-$folder/kept}
trap 'rm -rf "$folder"' EXIT
touch "$folder"/{rows,reasons,none}
mkdir -p "$kept"

fails() {
    echo "frames.sh: $1" >&2
    exit 2
}

for word in erlc erl python3 "$program"; do
    command -v "$word" >/dev/null || fails "no $word"
done

# erlang EXPRESSION: its output.
erlang() { erl -noshell -eval "$1, halt()."; }

# compile SOURCE OPTION WORD..: compiles the modules that the standard input names, with these words, to the folder `listings`. Many are
# compiled by one erlc, and those that it leaves, since it ends at the first that can't be, each by one of its own.
compile() {
    listings=$kept/$1.$2
    if [[ -d $listings ]]; then return; fi
    mkdir "$listings"
    local words=(-S -W0 -o "$listings" "${@:3}") source
    if [[ $2 != default ]]; then words+=("$2"); fi
    sort >"$folder/sources"
    xargs -r -a "$folder/sources" -P "$jobs" -n 10 erlc "${words[@]}" >"$folder/log" 2>&1
    while read -r source; do
        if [[ ! -s $listings/$(basename "$source" .erl).S ]]; then echo "$source"; fi
    done <"$folder/sources" >"$folder/left"
    xargs -r -a "$folder/left" -P "$jobs" -n 1 erlc "${words[@]}" >"$folder/log" 2>&1
    # Of a module that can't be compiled an empty file may be there.
    find "$listings" -name '*.S' -empty -delete
}

# assemble NAMES: beamas is run over each listing that the standard input names. `beyond`, `mismatches` and `wrong` are then how many are
# refused for features outside of the profile, for their frames, and for something else; the messages about these go to the file `told`.
assemble() {
    mkdir "$folder/said"
    xargs -r -P "$jobs" -n 200 bash -c '
        for listing; do
            said=$("$program" -v "$listing" /dev/null 2>&1)
            status=$?
            if [[ $status != 0 ]]; then
                if [[ $status != 1 ]]; then echo "beamas: $listing: status $status"; fi
                echo "$said"
            fi
        done >"$0/$$"' "$folder/said"
    find "$folder/said" -type f | sort -V | xargs -r cat >"$folder/all"
    rm -r "$folder/said"
    python3 "$root/bench/frames_functions.py" count "$outside" "$folder/reasons" "$1" "$folder/all" >"$folder/counts" || fails "no counts"
    read -r beyond mismatches wrong <"$folder/counts"
    tail -n +2 "$folder/counts" >>"$folder/told"
    failures=$((failures + wrong))
}

row() { printf '%-12s %-13s %8s %8s %8s %10s %8s %8s\n' "$@"; }

# measure SOURCE OPTION: the row of the listings in the folder `listings`.
measure() {
    local modules functions cells
    : >"$folder/told"
    mkdir "$folder/functions"
    : >"$folder/functions/names"
    find "$listings" -name '*.S' | sort >"$folder/modules"
    xargs -r -a "$folder/modules" python3 "$root/bench/frames_functions.py" cut "$folder/functions" || fails "a listing can't be cut"
    modules=$(wc -l <"$folder/modules") functions=$(wc -l <"$folder/functions/names")
    assemble "$folder/none" <"$folder/modules"
    cells=("$modules" $((modules - beyond)) "$mismatches")
    assemble "$folder/functions/names" < <(cut -f 1 "$folder/functions/names")
    cells+=("$functions" $((functions - beyond)) "$mismatches")
    row "$1" "$2" "${cells[@]}" | tee -a "$folder/rows"
    sed 's/^/    /' "$folder/told"
    rm -r "$folder/functions"
    if [[ -z ${LISTINGS:-} ]]; then rm -r "$listings"; fi
}

failures=0
home=$(erlang 'io:put_chars(code:lib_dir())')
if [[ $libraries == all ]]; then libraries=$(find "$home" -mindepth 1 -maxdepth 1 -printf '%f\n' | sed 's/-[0-9.]*$//' | sort -u); fi
echo "OTP $(erlang 'io:put_chars(erlang:system_info(otp_release))') in $home, $program"
row source options modules within refused functions within refused
for library in $libraries; do
    at=$(erlang "case code:lib_dir($library) of {error, _} -> ok; At -> io:put_chars(At) end")
    if [[ -n $at ]]; then find -L "$at" -name '*.erl' >"$folder/$library"; else : >"$folder/$library"; fi
    all=$(wc -l <"$folder/$library")
    if [[ $all == 0 ]]; then
        echo "$library: no sources"
        continue
    fi
    # The settings of its makefiles: where its headers and those that all libraries use are, and its version.
    words=(-I "$at" -I "$home" '-DCOMPILER_VSN="0"' '-DVSN="0"')
    while read -r place; do words+=(-I "$place"); done < <(find -L "$at" "$home"/{kernel,stdlib}-* -name '*.hrl' -printf '%h\n' | sort -u)
    for option in default +inline +no_type_opt; do
        compile "$library" "$option" "${words[@]}" <"$folder/$library"
        compiled=$(find "$listings" -name '*.S' | wc -l)
        if [[ $compiled != "$all" ]]; then echo "$library: $((all - compiled)) of $all modules can't be compiled"; fi
        measure "$library" "$option"
    done
done

mkdir "$folder/generated"
python3 "$root/bench/frames_generate.py" "$count" "$seed" "$folder/generated" || fails "no modules are generated"
for option in default +inline +no_type_opt; do
    compile "generated.$count.$seed" "$option" < <(find "$folder/generated" -name '*.erl')
    if [[ $(find "$listings" -name '*.S' | wc -l) != "$count" ]]; then fails "generated modules can't be compiled: $(<"$folder/log")"; fi
    measure generated "$option"
done

# The sums of the rows of each option, and of all rows.
for option in default +inline +no_type_opt .; do
    sums=$(awk -v option="$option" 'option == "." || $2 == option { for (at = 3; at <= 8; at++) sum[at] += $at }
        END { for (at = 3; at <= 8; at++) print sum[at] + 0 }' "$folder/rows")
    # shellcheck disable=SC2086
    row all "${option#.}" $sums
done
otherwise=$(grep -vx FrameMismatch "$folder/reasons" | sort | uniq -c | awk '{ printf "%s%s %s", comma, $2, $1; comma = ", " }')
echo "refused otherwise: ${otherwise:-none}"
if grep -qx FrameMismatch "$folder/reasons"; then exit 1; fi
if [[ $failures != 0 ]]; then fails "$failures listings are refused by names that no listing of the compiler should have"; fi
