#!/bin/sh
# Lists, by point of docs/DESIGN-PASS.md, the lines of crates/*/src that a reader has to judge, and counts them.
# Run it at the top of the repository. With -q it prints the counts alone.
set -eu
quiet=${1-}
src=$(git ls-files 'crates/*/src/*.rt')
found() {
    name=$1
    pattern=$2
    lines=$(grep -nE "$pattern" $src || true)
    echo "$name: $(printf '%s' "$lines" | grep -c . || true)"
    [ "$quiet" = -q ] || printf '%s\n' "$lines" | sed '/^$/d; s/^/    /'
}
found "1 own enums" '^\s*(pub(\(crate\))? )?enum '
found "1 an Option or Result taken apart by hand" '(None|Some\([^)]*\)|Ok\([^)]*\)|Err\(_\)) (if .*)?=>|let Some|if let |is_some\(\)|is_none\(\)'
found "1 flags as parameters" '[(,] *\w+: bool'
found "1 numbers for kinds or refusals" 'match [a-z.]*\.0 \{|number: (u8|[0-9]+)|=> \(?[0-9]+[,)]|-> \(?u8\b|-> u32 \{'
found "2 the functions (twins are judged by their bodies)" '^\s*(pub(\(crate\))? )?(const )?fn '
found "2 constants" '^\s*(pub )?const [A-Z_]+:'
found "3 loops over a range, with an index, or while" '^\s*(for .* in .*\.\.|for \(.*enumerate\(\)|while |loop )|[a-z] \+= 1;'
found "3 the other loops" '^\s*for \w+ in [^.]*(\.[a-z_]+(\(\))?)* \{'
found "4 compared through the number inside" '\.0 (==|!=|<|<=|>|>=) (-?[A-Z_0-9]+|[a-z_]+(\.[a-z_]+)*\.0\b)'
found "4 conversion and printing by hand" ' as (u|i)(8|16|32|64|size)|fn (ground|letter|load_of|reading_of|heading|denied_line|shares_line)\b|impl.* From<|impl.* Display'
found "5 a seat, zone, product or hour, or a total with loads, beside one another" 'zone: Zone, product|^\s*zone: Zone,|total: (u64|Cents), loads|^\s*total: Cents,'
found "6 arrays, buffers and indexed lists" '\[[^]]*; *[A-Z_0-9]+\]|Vec<|[a-z]+\[[a-z]+\]|&mut \w+\['
found "7 steps and tables" 'event: TradeEvent|: bool\)|fn\('
echo "5 clauses that stand in three or more contracts:"
cat $src | sed -nE 's/^ *((requires|ensures) .*)/\1/p' | sort | uniq -c | sort -rn | awk '$1 >= 3 { print "    " $0 }'
echo "5 contracts under a lawful sheet: $(grep -hE 'Lawful S\.Sheet\.table S\.Sheet\.lawful self\.now →' $src | wc -l)"
echo "8 lines under proofs/: $(git ls-files 'crates/*/proofs/*.antt' | xargs cat | wc -l)"
