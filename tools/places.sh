#!/bin/sh
# The places in src/ that a pass over the design looks at, point by point; the numbers of lines are counted.
# Run at the top of the repository: tools/places.sh [1..7] prints the lines of one point, and without a number the counts.
point() {
    case $1 in
    1) grep -rnE '^ *(pub )?enum |kind: u16|len: u16|kind\(key\) ==|match (book\.)?kind|match kind|match self\.number|(->|:) (anyhow::Result<)?bool' crates/*/src ;;
    2) grep -rnE 'fn (rule|key|head)_(row|line|lines|fields)\b|fn (rules|keys|symbols|letters|rule|key)_of\b|fn set_(rules|keys|line|field)\b|fn (symbol|byte)\(&self, at|fn (unproductive|cyclic|told|book_text|is_digit|is_letter|within|blanks|right)\b|impl.* (Book|Growth) for|NotFound' crates/*/src ;;
    3) grep -rnE '^ *(for |loop|while )' crates/*/src ;;
    4) grep -rnE 'fn (same|is_same|[a-z]+_sentence|[a-z]+_words|fault_line|last_line|acceptance|refusal|right|blanks|from|try_from|fmt)\b|byte (>=|<=) |<= byte| as (u8|u16|u32|u64|usize)\b' crates/*/src ;;
    5) grep -rhoE 'requires ([a-z]+ )?\{.*\}' crates/*/src | sed -E 's/requires ([a-z]+ )?//' | sort | uniq -c | sort -rn
       grep -rnE 'fn .*(book: &B, .*counts|middle: &\[u8\], line|text: &\[u8\], line|word: &\[u8\], from)' crates/*/src ;;
    6) grep -rnE '\[[A-Za-z0-9]+; [0-9]+\][,;]?$|\[[A-Za-z0-9]+; [0-9]+\],? |(len|size|rules|keys): u16,?$|&mut \[u8\]' crates/*/src ;;
    7) grep -rnE '[a-z]+: bool[,)]|\bdyn\b|\bfn\(|\bFn(Mut|Once)?\b' crates/*/src ;;
    esac
}
if [ $# -eq 1 ]; then
    point "$1"
else
    for p in 1 2 3 4 5 6 7; do
        echo "point $p: $(point $p | wc -l)"
    done
fi
