#!/usr/bin/env bash
# Wrong machines: each file of wrong/ changes a rule of the bridge, in a copy, and says where the proof of demand 3 must be
# refused then, or that it must still pass. The copy has no code of the bridge, whose contracts would refuse a wrong
# definition first: it has the definitions, and of the proofs those that `demand3` rests on.
#
#   crates/trace/wrong.sh [NAME...]    all, or the named ones. Exit status 1: something is not as it must be.
#
# A copy is a repository of its own, whose checks begin with what earlier ones kept of the same crates, so that the lower ones,
# whole in it, are mostly not proved again. The logs stay in crates/trace/out/wrong/ until rt ci runs.
set -euo pipefail
cd "$(dirname "$0")/../.."
jobs=${WRONG_JOBS:-2}
lower='common refusals bits tags tlp address burst messages ecam packets'
bridge='verdict parts machine bridge_laws trace'
logs=$PWD/crates/trace/out/wrong
room=$(mktemp -d)
trap 'rm -rf "$room"' EXIT
mkdir -p "$logs"

# ---- the copy without code

# the types of a crate's lib.rt, their constants, and what they name
types_only() { # LIB
    awk '/^(pub )?(use|const|struct|enum) / { inside = 1 }
        inside || /^#(!\[|\[derive)/ { print }
        /^}|^[^ ].*;$/ { inside = 0 }' "$1"
}

# the modules of a crate's proofs/ that some lines use, as paths of files below it
named() { # CRATE, lines on standard input
    sed -n "s/^\(pub \|unfoldable \)*use Rattle\.$1\.proofs\.\([A-Za-z0-9.]*\).*/\2/p" | sed 's/\.$//' | tr . / | sort -u | while read -r m; do
        [ ! -f "crates/$1/proofs/$m.antt" ] || echo "$m"
    done
}

# those that the modules in a file rest on, added to it
reached() { # CRATE FILE
    local n=0
    while [ "$(wc -l <"$2")" -ne "$n" ]; do
        n=$(wc -l <"$2")
        sed "s|.*|crates/$1/proofs/&.antt|" "$2" | xargs cat | named "$1" | sort -u - "$2" -o "$2"
    done
}

base=$room/base
mkdir -p "$base/crates"
for c in $lower $bridge; do
    grep "^$c[ :]" crates.txt >>"$base/crates.txt"
    mkdir "$base/crates/$c"
    for part in src specs proofs; do
        [ ! -d "crates/$c/$part" ] || cp -R "crates/$c/$part" "$base/crates/$c/"
    done
done

(
    cd "$base"
    for c in $bridge; do
        types_only "crates/$c/src/lib.rt" >"$room/lib.rt"
        rm -r "crates/$c/src"/*
        mv "$room/lib.rt" "crates/$c/src/lib.rt"
        # a folder with no file of its own beside it holds the proof of a function
        [ ! -d "crates/$c/proofs" ] || find "crates/$c/proofs" -mindepth 1 -type d | while read -r d; do
            [ -e "$d.antt" ] || rm -rf "$d"
        done
    done
    # what `demand3` itself rests on: no example
    sed -i -e '/^use .*\.\(Example\|Applied\)\./d' -e '/^-- the example/,$d' crates/trace/proofs/Demand3.antt
    rm crates/trace/specs/Example.antt crates/trace/specs/SessionExamples.antt crates/trace/specs/Applied.antt
    sed -i '/Example\|Applied/d' crates/trace/specs/Lib.antt
    # each claim by itself, so that a log names each one that falls
    awk 'FNR == NR { if (/^  pub [a-z_]+ : /) type[$2] = $4; next }
        /^use Rattle\.trace\.proofs\./ { print }
        /^  [a-z_]+ = .*;$/ { all = all (all ? ", " : "") type[$1]; text = text "\npub " $1 " : " type[$1] "\n" $1 " = " substr($3, 1, length($3) - 1) "\n" }
        END { print "use Rattle.trace.specs.Claims.{" all "}"; printf "%s", text }' \
        <(sed -n '/^pub record Demand3 /,$p' crates/trace/specs/Claims.antt) crates/trace/proofs/Demand3.antt >crates/trace/proofs/Holds.antt
    echo 'pub mod Holds' >>crates/trace/proofs/Lib.antt
    printf '%s\n' Demand3 Holds >"$room/trace"
    reached trace "$room/trace"
    sed 's|.*|crates/trace/proofs/&.antt|' "$room/trace" | xargs cat >"$room/used"
    for c in bridge_laws machine; do
        named "$c" <"$room/used" >"$room/$c"
        reached "$c" "$room/$c"
        sed "s|.*|crates/$c/proofs/&.antt|" "$room/$c" | xargs cat >>"$room/used"
    done
    for c in trace bridge_laws machine; do
        # a folder's own file declares the modules in it
        sed -n 's|/.*||p' "$room/$c" | sort -u >"$room/folders"
        (cd "crates/$c/proofs" && find . -name '*.antt' | sed 's|^\./||; s|\.antt$||') | while read -r m; do
            if [ "$m" = Lib ] || grep -Fxq "$m" "$room/folders"; then
                from=''
                [ "$m" = Lib ] || from=$m/
                awk -v from="$from" 'FNR == NR { kept[$0]; sub(/\/.*/, ""); kept[$0]; next } /^(pub )?mod / && (from $NF) in kept' \
                    "$room/$c" "crates/$c/proofs/$m.antt" >"$room/lib"
                mv "$room/lib" "crates/$c/proofs/$m.antt"
            elif ! grep -Fxq "$m" "$room/$c"; then
                rm "crates/$c/proofs/$m.antt"
            fi
        done
    done
    find crates/*/proofs -type d -empty -delete
)

# ---- a wrong machine

# Applies an edit to the copy in the present folder: 'old:' texts, each of which stands once in the 'file:' above it, become
# their 'new:' texts; \n is a line's end.
apply() { # EDITFILE
    local line f='' old='' pairs=0
    while IFS= read -r line || [ -n "$line" ]; do
        case $line in
        'file: '*)
            f=${line#file: }
            case $f in */trace/specs/Events.antt | */trace/specs/FarSide.antt | */trace/specs/Claims.antt)
                echo 'bad edit: it changes what is claimed'
                return 1
                ;;
            esac
            ;;
        'old: '*) old=${line#old: } ;;
        'new:'*)
            line=${line#new:}
            OLD=$old NEW=${line# } awk '
                { text = text $0 "\n" }
                END {
                    old = ENVIRON["OLD"]; new = ENVIRON["NEW"]
                    gsub(/\\n/, "\n", old); gsub(/\\n/, "\n", new)
                    at = index(text, old)
                    if (old == "" || !at) exit 3
                    rest = substr(text, at + length(old))
                    if (index(rest, old)) exit 4
                    printf "%s%s%s", substr(text, 1, at - 1), new, rest
                }' "$f" >.edited || { echo "bad edit: '$old' is not in $f just once"; return 1; }
            mv .edited "$f"
            pairs=$((pairs + 1))
            ;;
        esac
    done <"$1"
    [ "$pairs" -gt 0 ] || { echo "bad edit: it changes nothing"; return 1; }
}

# What became of the copy in the present folder: 'proved'; or 'refused in' each file and lemma that is refused for a reason of
# its own, which must have the text that the edit 'shows', so that no mistake in the edit passes for a refusal; and the claims
# that fall with them.
outcome() { # LOG TEXT
    if (cd crates/trace && rt check) >"$1" 2>&1; then
        echo proved
        return
    fi
    local first falls
    # a line 'not checked: ..' names what depends on something refused
    first=$(grep '^[^ ]*: error: ' "$1" | grep -v ' not checked: ') || true
    falls=$(sed -n 's|^\./proofs/Holds\.antt:.* not checked: ||p' "$1" | list)
    if ! grep -q '^\./proofs/Demand3\.antt:.* not checked: demand3$' "$1"; then
        echo "not proved, and demand3 was not reached: $(printf '%s\n' "$first" | head -n 1 | cut -c 1-300)"
    elif printf '%s\n' "$first" | grep -Fvq -e "$2"; then
        echo "refused for another reason: $(printf '%s\n' "$first" | grep -Fv -m 1 -e "$2" | cut -c 1-300)"
    else
        echo "refused in $(printf '%s\n' "$first" | sed "s|^\./\([^:]*\):[0-9:]* error: \`\([^\`]*\)\`.*|crates/trace/\1 \2|" | LC_ALL=C sort -u | list); with it fall $falls"
    fi
}

# lines as a list
list() { paste -s -d , | sed 's/,/, /g'; }

# Prints a wrong machine's line, and leaves its word in the room.
try() { # NAME
    local edit=$PWD/crates/trace/wrong/$1.edit wants got began=$SECONDS
    echo failed >"$room/$1.res"
    wants=$(sed -n 's/^expect: //p' "$edit")
    cp -R "$base" "$room/$1"
    cd "$room/$1"
    got=$(apply "$edit" && outcome "$logs/$1.log" "$(sed -n 's/^shows: //p' "$edit")") || true
    if [ "$got" = "$wants" ]; then
        echo as-it-must >"$room/$1.res"
        echo "$1: $got, as it must be ($((SECONDS - began)) s)"
    else
        echo "$1: FAILED: $got; it must be $wants ($((SECONDS - began)) s)"
    fi
}

# ---- with no edit the copy is proved: without that a refusal would say nothing. What this check keeps, the others begin with.
cp -R "$base" "$room/none"
got=$(cd "$room/none" && outcome "$logs/none.log" '')
echo "no edit: $got ($SECONDS s)"
[ "$got" = proved ] || exit 1

names=$*
[ -n "$names" ] || names=$(basename -a -s .edit crates/trace/wrong/*.edit)
bad=0
set -- $names
while [ $# -gt 0 ]; do
    batch=''
    for _ in $(seq "$jobs"); do
        [ $# -gt 0 ] || break
        (try "$1") >"$room/$1.out" 2>&1 &
        batch="$batch $1"
        shift
    done
    wait
    for n in $batch; do
        cat "$room/$n.out"
        [ "$(cat "$room/$n.res")" = as-it-must ] || bad=1
        rm -rf "${room:?}/$n"
    done
done
echo "$(echo $names | wc -w) wrong machines, $SECONDS s"
exit "$bad"
