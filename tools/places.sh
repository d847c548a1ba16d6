#!/bin/sh
# Lists the places of src/ where one of eight older designs may stand: tools/places.sh POINT, with POINT from 1 to 8.
# Each line is a candidate, read by hand for docs/DESIGN-PASS.md; 'tools/places.sh count' counts the lines of each.
cd "$(dirname "$0")/.." || exit 1

lines() { grep -rnE --include=*.rt "$1" crates/*/src | grep -vE ':[0-9]+: *//'; }

case "$1" in
1)  # numbers as refusals; own enums; a word for whether something was done; a flag or an answer beside a value; numbers for kinds
    lines 'Result<[^;{]*, (u8|u16|u32|u64|usize|i64)>'
    lines '^ *(pub(\(crate\))? )?enum '
    lines '^ *(pub(\(crate\))? )?fn (push|replace|put_[a-z]*)\b.*-> bool'
    lines '^ +(pub )?[a-z_]+: (bool|Success|Answer),'
    lines 'const [A-Z_]*KIND' ;;
2)  # pairs of places that share six lines or more, in src/ alone
    # ('duplicates' knows no .rt files, so it reads copies that are named .rs)
    copies=$(mktemp -d)
    for file in $(find crates/*/src -name '*.rt'); do
        mkdir -p "$copies/$(dirname "$file")" && cp "$file" "$copies/${file%.rt}.rs"
    done
    duplicates --repo "$copies/crates" --most 200 --seconds 60 | grep -E '^D[0-9]+ '
    rm -r "$copies" ;;
3)  # loops over a range of indices, over counted items, and 'while'
    lines '\bfor [a-z_]+ in [^{]*\.\.'
    lines '\bfor \([a-z_]+, .*\) in .*enumerate'
    lines '\bwhile ' ;;
4)  # impls by hand of what can be derived or converted; functions that convert or print; options and results turned by hand
    lines '^impl.* (Clone|Copy|PartialEq|Eq|PartialOrd|Ord|Hash|Debug|fmt::Display|From<.*>|TryFrom<.*>|FromStr) for '
    lines '^ *(pub(\(crate\))? )?fn (read|text|number|reason|word|joined|in_two_complement|digit_value|pair_value|moved)\b'
    lines '(Err|Some)\([a-z_]+\) => (Ok|Err|Some|return)|(None|Err\(_\)) => (Ok|Err|None|return|0|[a-z:A-Z]+\(\))' ;;
5)  # facts that stand in a `requires`; parameters that travel together
    lines 'requires .*(Located|rest_from|Weighable|Divisible|Comparable|Opened|Roomy|ValuesWithin|StateNumbers|Addends|≤ length|≤ N|most_[a-z]* )'
    lines 'certificate: &\[u8\]'
    lines 'heading: &Heading'
    lines 'inners: &(mut )?Register'
    lines 'piece: Piece' ;;
6)  # a count beside a buffer
    lines '^ *(pub )?(count|len): usize,' ;;
7)  # matches that choose a step
    lines '(match (self|\*self|piece|command|obligation|base|layer|stack|found)|match FirstByte.*|match Keyword.*) \{' ;;
8)  # answers in proofs/
    find crates/*/proofs -name '*.antt' | sort ;;
count)
    for point in 1 2 3 4 5 6 7 8; do
        echo "$point: $("$0" $point | wc -l)"
    done ;;
*)  echo "usage: tools/places.sh 1..8 | count" >&2; exit 2 ;;
esac
