"""How to read the notation of definitions, contracts and laws: for those who know programs and no proofs."""
from .marks import prose

FORMS = (
    ('`f x y`', 'f of x and y'),
    ('`A → B → C`', 'takes an A and a B, gives a C'),
    ('`(x : A) → P`', 'P for every x of type A'),
    ('`P → Q`', 'where P holds, Q holds'),
    ('`P × Q`', 'P and Q'),
    ('`a ≡ b`', 'a and b are equal'),
    ('`Unit`, `⊥`', 'what always holds, what never does; `P → ⊥` is "not P"'),
    ('`zero`, `suc n`', '0, and n + 1'),
    ('`a - b`, `a / b`, `a % b`', '0 where b is the larger; rounded down; the remainder'),
    ('`cond t a b`', 'a where the test t is true, else b'),
    ('`eqb`, `ltb`, `leb`', 'the tests "equal", "less", "at most", also `==`, `nat_lt`, `nat_le`; `&&`, `||`, `not` join them'),
    ('`[]`, `x ∷ l`, `l ++ m`', 'the list of nothing; x and then l; l and then m'),
    ('`get_or l i d`', 'the element of l at i, counted from 0; d past the end'),
    ('`set l i x`', 'l with x at i; l itself where i is past the end'),
    ('`take n l`, `drop n l`, `replicate n x`', 'the first n elements; what is left without them; n times x'),
    ('`r.x`', 'the field x of r'),
    ('`record { x = a; y = b }`', 'the record with these fields'),
    ('`λ x. e`', 'the function that makes e of x'),
    ('`f zero = a`, `f (suc n) = b`', 'a definition by cases, one line each'),
    ('`pub`, `abbrev`, `unfoldable`', 'marks for other files and for the prover; they change no meaning'),
    ('`ensures { P }`', 'of every call of the function: P holds, of its `result` too'),
    ('`requires { P }`', 'only called where P is shown; no public function has it'),
    ('`m.old`, `m.new`', 'what the lent buffer m holds at the call, and at the return; `m.now` where it is lent only to be read'),
    ('`module _ (x : A) where`', 'the law below it holds for every x of type A'),
)


def shown():
    items = ''.join(f'<div><dt>{prose(form)}</dt><dd>{prose(words)}</dd></div>' for form, words in FORMS)
    return f'<details class="list" id="notation"><summary>How to read the notation</summary><dl>{items}</dl></details>'
