#!/bin/sh
# Counts, in the sources, the places that docs/DESIGN-PASS.md speaks of. With -l it lists them.
cd "$(dirname "$0")/.." || exit 1
list=$1

count() {
    label=$1
    shift
    found=$("$@" || true)
    number=$(printf '%s' "$found" | grep -c '' || true)
    printf '%4d  %s\n' "$number" "$label"
    if [ "$list" = -l ] && [ -n "$found" ]; then printf '%s\n' "$found" | sed 's/^/        /'; fi
}

rust() { grep -rnE "$1" crates/*/src --include='*.rt'; }

count '1  a number that says nothing as a result' rust '^pub fn .*-> u8$'
count '1  a number for a kind of mark' rust 'const (LEAF|COVERED): u8|paint(_patches)?\(.*, [0-2](, row)?\);|\{ LEAF \}'
count '1  a number for a refusal, by a match' rust '=> (1|2|4|5|1[0-4]),$'
count '1  an enum that only tells first from second' rust '\bChoice::(First|Second)|^pub enum Choice'
count '1  let .. else that passes None or an error up' sh -c "grep -rn -A1 -E 'let (Some|Ok)\(.*\) = .* else \{' crates/*/src --include='*.rt' | grep -E 'return (None|Err)'"
count '1  match that passes None or an error up' rust '(None|Err\(_\)) => (None|Err\(AllocError\)),'
count '2  functions of twins' rust 'fn (is_leaf|is_covered|volume_share|water_share|part_share|push_cells|push_runs|read_split|read_cluster|wholes|floor_div|across|boundary|split|cluster|read_rule)\('
count '2  arms of one match with the same right side' rust 'Side::(South|North) => (self\.between|upwind)'
count '2  the same test of a count of fields' rust 'if field_count\(line\) != '
count '2  the same test of a length of a sheet' rust 'if !sheets\.are_long'
count '3  an index counted by for over a range' rust 'for \w+ in 0\.\.'
count '3  a counter raised by hand' rust '\w+ \+= 1;|count \+ 1'
count '3  while and loop' rust '^ *(while|loop)\b'
count '4  an impl by hand of equality, order, copying, conversion or printing' rust '^impl.* (PartialEq|Eq|PartialOrd|Ord|Clone|Copy|Default|Hash|From<.*>|TryFrom<.*>|FromStr|.*Display|.*Debug) for'
count '4  a conversion or a printed form that is a function of its own' rust 'fn (number|layer|letter|read_word|across|speed|write_number|write_part|write_steps)\('
count '4  a plain type that derives no equality' sh -c "grep -rn -A1 -E '^#\[derive\((Clone, Copy|Drop)\)\]' crates/*/src --include='*.rt' | grep -E 'pub(\(crate\))? (struct|enum)'"
count '5  a requires' rust '^ *requires '
count '5  a Sheets taken apart or put together' rust '^ *(let )?(let sheets = )?Sheets \{$'
count '6  a buffer with a length or a count beside' rust '(count|length): usize|mut count = 0|buffer: &mut|row: &\[u8; 256\]|row: &mut \[u8; 256\]'
count '7  a match' rust '^[^/]*\bmatch '
count '7  a boxed closure, a dyn, a function pointer' rust '\bdyn |: fn\(|Box<'
count '8  lines of answers and invariants' sh -c "cat crates/*/proofs/*/*.antt crates/*/proofs/*/*/*.antt crates/*/proofs/*/*/*/*.antt crates/*/proofs/*/*/*/*/*.antt 2>/dev/null"
count '8  lines of lemmas in proofs/' sh -c "cat crates/*/proofs/*.antt"
