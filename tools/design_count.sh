#!/bin/sh
# Lists what docs/DESIGN-PASS.md counts: the hits of one search for each point, in crates/*/src (8: in proofs).
# tools/design_count.sh        how many hits each search has
# tools/design_count.sh POINT  the hits themselves
set -eu
cd "$(dirname "$0")/../crates"

hits() {
    case $1 in
    1a) grep -nE '\benum ' */src/*.rt ;;
    1b) grep -nE -- '-> (usize|u8|u16|u32|u64)\b' */src/*.rt ;;
    1c) grep -nE 'Err\(_\) =>|Ok\(\(\)\) => Ok|Ok\([a-z]+\) => [a-z]+,|Err\((e|fault|what)\) => (return )?Err|None => (return )?(Err|None)|let (Some|Ok)\(.*\) = .* else' */src/*.rt ;;
    2a) grep -hoE 'fn [a-z_]+' */src/*.rt | sort | uniq -d ;;
    2b) grep -nE '(struct|enum|trait) [A-Z]|^ *impl.* for ' */src/*.rt ;;
    3) grep -nE 'for [a-z_]+ in [^{]*\.\.|while |\+= 1\b|enumerate\(\)' */src/*.rt ;;
    4a) grep -nE "&'static str|fn (read|text|at|is_[a-z_]+|[a-z_]+_of|[a-z_]+_name|untouched|refused)\(" */src/*.rt ;;
    4b) grep -nE ' as (u8|u16|u32|u64|usize|i8|i16|i32)\b' */src/*.rt | grep -vE '^[^:]*:[0-9]*: *//' ;;
    5a) grep -hoE 'requires [a-z]* ?\{.*\}' */src/*.rt ;;
    5b) grep -nE 'm: u16, n: u16|k: usize|base: usize|wished: usize|buf: &(mut )?\[u8\], |line: &Line|m: u16, size: u8' */src/*.rt ;;
    6) grep -nE 'marks: &mut \[bool\], (m|len): usize|table: &(mut )?\[Spare\],? |k: usize,$|\[(false|0u8|Spare::Free); |Vec<\(' */src/*.rt ;;
    7) grep -nE 'match (\*?word|command|rule|kind|self)\b|\bdyn |impl Fn|Box<|: fn\(' */src/*.rt ;;
    8) grep -rnE '^(pub )?[a-z][^ ]* :' --include='*.antt' */proofs ;;
    *) echo "no point $1" >&2; exit 2 ;;
    esac
}

if [ $# -gt 0 ]; then
    hits "$1" || true
else
    for point in 1a 1b 1c 2a 2b 3 4a 4b 5a 5b 6 7 8; do
        echo "$point $(hits $point | wc -l)"
    done
fi
