#!/bin/sh
# Places in src/ of forms that today's language has better ones for, by point of docs/DESIGN-PASS.md.
# Usage: tools/forms.sh [-l] COMMIT [CRATE]: counts, or with -l the lines too. COMMIT may be HEAD.
list=
if [ "$1" = -l ]; then list=1; shift; fi
commit=${1:-HEAD}
where="crates/${2:-*}/src"
point() {
    name=$1; shift
    found=$(git grep -nE "$@" "$commit" -- ":(glob)$where/**/*.rt" | sed "s/^$commit:crates.//" | grep -vE ':[0-9]+: *//' || true)
    count=$(printf '%s' "$found" | grep -c . || true)
    printf '%s: %s\n' "$name" "$count"
    if [ -n "$list" ] && [ -n "$found" ]; then printf '%s\n' "$found" | sed 's/^/    /'; fi
}
point '1a variants that say nothing, none or no value' -e '^ +(Other|Unknown|NoValue\(.*\)|Undecided),$'
point '1b a failure handed on by hand' -e 'return None;' -e 'None => None' -e 'Err\((\w+)\) => Err\(\1\)' -e 'Err\(refus(al|ed)\) => Err\(refus(al|ed)\)'
point '1c a flag for a case or a failure' -e '(there|keep|join|used|join|full): bool' -e '-> bool$' --and -e 'evaluate'
point '1d numbers for kinds' -e '\.(op|form) (==|!=) [0-9]' -e 'match (row|f|c\.p)\.(op|form) ' -e '^ *form: [123],' -e 'fn (read_rule|form|operation)\('
point '2a twins of types' -e 'struct (Names|Tuple|Sizes|Sealed|Trial|Settled|Cut|Left)\b'
point '2b twins of functions' -e 'fn (four|tuple_of|tuple_in|equal_names|same|name_at|join|appended|reverse|turned|representative|no_fact|no_row|row|arity|arity_at|is_in|is_eq|is_same|says_same|uses_[pqtw]|holds_old|target_of|numbers_letters|tags_letters|renamed_numbers_letter|renamed_tags_letter|code_at|pair_at|many_names|many_facts|names_over|facts_over|fill|fill_pairs|fill_sifted|fill_variable|fact_size|put_fact|facts_size|put_facts|names_size|put_names|row_size|put_row|put_numbers|size|take_step|step|end|settle|answer|check_model|judge_under|print_under|refusal|shown)\b'
point '3a for over a range of numbers' -e 'for \w+ in [^{]*\.\.'
point '3b while' -e '^ *while '
point '4a equality, conversion and reading by hand' -e 'fn (same|equal_names|equal_facts|is_same|says_same|read_rule|form|operation|said|tuple_of|tuple_in|code_of|detail|labels_are|compare)\('
point '4b casts that widen, and bytes put together' -e ' as (u16|u32|u64|usize)\b' -e '\* 256'
point '4c printing by hand' -e 'fn (digits_of|put_number|put|put_numbers|put_row|row_size)\('
point '5a facts that stand in the contracts of three functions or more' -e 'requires.*(Enough \(held|Below |start ≤|end ≤ length|≤ length store|Spans |k < length ends|constraints ≤|length terms.now ≤ 64|4096 ≤|n ≤ 64|length representatives|length facts.now ≤)' -e '^ *ghost (few|names_few|terms_few|constraints_few)'
point '5b parameters that travel together' -e 'fn .*(store: &mut \[Tuple\], start|out: &mut \[u8\], at)' -e '^ +(store|start|ends|representatives|facts|terms|constraints|out|at|labels|count): [^=]*,$'
point '6a a buffer with a length beside it' -e '\], count: ' -e '\], n: ' -e '^ +(first|second|third|fourth): Fact,' -e 'pairs: \[Pair; 16\]' -e 'count: usize,$'
point '6b places in one buffer' -e 'Span\b' -e 'ends: &'
point '7 switches on which step' -e '(keep|join): bool' -e 'enum Make' -e 'fn (make|pair_with|sift)\('
