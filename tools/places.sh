#!/usr/bin/env bash
# Lists the lines of src/ where an older form may stand, point by point, without comments and tests; with lines=no only how
# many there are. Run at the top of the repository. A line is not yet a place: docs/DESIGN-PASS.md says which are.
set -u
src() { find crates/*/src -name '*.rt' ! -name tests.rt | sort; }
list() {
    local name=$1 hits
    hits=$(src | xargs grep -nE "$2" | sed 's/^crates\///' | grep -vE ':[0-9]+: *//')
    echo "== $name: $(printf '%s' "$hits" | grep -c '') lines"
    [ "${lines:-yes}" = no ] || printf '%s\n' "$hits"
}
list '1a kinds and codes as numbers'       'const [A-Z_]+: u32 = [0-9]+;|-> u32 *$|fits: bool'
list '1b results in results'               'Result<Result<|Ok\(Ok\(|Ok\(Err\('
list '1c Option and Result turned by hand' '(Some|Ok)\([a-z]*\) => (Ok|Some)\(|(None|Err\(_\)) => (Err\(|None|false|0)'
list '2a one function for each fault enum' 'fn (number|place|layer|reason)\(&self\)'
list '2b one function for each rule'       'fn (share|write)_[a-z_]+<T|for (Running|InTurn) '
list '2c one reader for each kind of field or row' 'fn (read|parse)_(rule|type|trued|word|number|row|rows|value)\b'
list '2d one arm or loop for each command' 'Refusal::[A-Z][a-z]+\(f\) =>|in [0-9]+\.\.fields'
list '3 indices counted by hand'           'for [a-z_]+ in [^{]*\.\.|while |\[(i|k|at|hour|n - 1|0)\]'
list '3b loops'                            '^ *(for|while|loop) '
list '4a conversions by hand'              'fn (basis_of|natural|terms_of|in_file|extra_cent|found|expected)\b|as (u|i)[0-9]+|as usize'
list '4b impls of comparisons, conversions and printing' 'impl(<[^>]*>)? (fmt::Display|From<|FromStr|TryFrom<|PartialEq|PartialOrd|Ord|Clone)'
list '5a facts that are required'          'requires( [a-z_]+)? \{'
list '5b parameters that travel together'  'hour: usize, available: u32|words: &\[u32\], at: usize|words: &\[u32\], asked|at: usize, field|number: u32,|total: i64,$'
list '6 buffers and lists'                 '; (N|M|MOST_HOURS|COUNT)\]|Vec<'
list '7 switches and tables of steps'      'match \*?self|match (command|figure|refusal|field)|dyn |impl Fn|fn\('
echo '== 8 answers and lemmas'
echo "answers: $(cat $(find crates/*/proofs -name Answers.antt) | grep -cE '^(pub )?[A-Za-z0-9_+-]+ : goal\.')"
echo "lines of answers: $(cat $(find crates/*/proofs -name Answers.antt) | wc -l)"
echo "lemmas in proofs/: $(cat crates/*/proofs/*.antt | grep -cE '^ *(pub )?[a-z_0-9]+ : ')"
echo "lines of lemmas: $(cat crates/*/proofs/*.antt | wc -l)"
