#!/bin/sh
# Counts the places that docs/DESIGN-PASS.md speaks of: run at the top of the repository, it prints one line a kind, and with -l the places themselves.
list=$1
src=$(find crates/*/src -name '*.rt' | sort)
places() {
    name=$1
    shift
    found=$(grep -nE "$@" $src)
    n=$(printf '%s' "$found" | grep -c '')
    echo "$name: $n"
    [ "$list" = -l ] && printf '%s\n' "$found"
    return 0
}
# Point 1.
places 'enums' '^ *(pub(\([a-z]+\))? )?enum '
places 'kinds by number' '\btag (==|!=) |\b(call|scanned)\.tag\b|\bconst (SET|RECORD|PUT_POLICY|PUT_ENTITY|AUTHORIZE|SET_SCHEMA|REMOVE_POLICY|REMOVE_ENTITY)\b'
places 'flags among parameters and fields' '\b(ok|stored|other|gone): (bool|usize)\b'
places 'handed on by hand' 'Err\(e\) => (return )?Err\(e\)|Some\(_\) => true|Some\(_\) => false|None => (return )?Err\(|Err\(_\) => (return )?(Err|None|false)|(There|New)\(_\) =>'
# Point 2: twins are listed on the page; these are the laws that answer a number for nothing.
places 'laws that answer a number' '^pub fn [a-z_]+\(\) -> u8'
# Point 3.
places 'while and loop' '\bwhile \b|\bloop \{'
places 'for over places' '\bfor [a-z_]+ in .*\.\.'
# Point 4.
places 'by hand, and not derived' 'fn (same_bools|compare_bools|compare_ints|compare_parts|before|less_piece|same_piece|is_same|number|int|int_of|pair|tag|load|op_of|var_of|bool_type|why_words|either)\b'
# Point 5.
places 'the clause small' 'requires small'
places 'a place within the bytes' 'at ≤ length bytes\.now'
places 'a schema in bytes' 'Stands bytes\.now actions'
places 'a schema in rows' 'requires schema \{ SchemaGood'
places 'entities in the store' 'requires all \{ EntitiesIn'
places 'a request that is asked' 'requires asked \{ RequestIn'
together() {
    echo "$1: $(cat $src | tr '\n' ' ' | grep -oE "$2" | grep -c '')"
}
together 'store and work together' 'store: &\[u64\], +work: &\[u64\]'
together 'store and work to write' 'store: &\[u64\], +work: &mut \[u64\]'
together 'bytes and a place' 'bytes: &\[u8\], +(at|a|here|place|from|actions|item|start):?'
together 'rows and a place' 'rows: &mut \[u64\], +to: usize'
together 'out and a place' 'out: &mut \[u8\], +at: usize'
together 'store and schema' 'store: &\[u64\], +schema: Schema'
together 'entities and request' 'entities: Entities, +request: Request'
# Point 6.
places 'pieces by their ends' '\b(a_end|b_end): usize|Piece \{|: Piece\b'
# Point 7.
places 'which step by an enum' 'enum (Test|Seek|Rule|Listed|Part|Step|Unary)\b'
# Point 8.
echo "lines of proofs: $(find crates/*/proofs -name '*.antt' | xargs cat | wc -l)"
echo "lines of answers: $(find crates/*/proofs -name Answers.antt | xargs cat | wc -l)"
