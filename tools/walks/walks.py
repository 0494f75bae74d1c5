#!/usr/bin/env python3
"""Writes the laws of crate lent_walks, one walk for each kind of entry over a lent record.

usage: tools/walks/walks.py

Rattle proves the entries by itself, and no proof of a function cites the laws; they stand as theorems on such code, over any record, any values and any callee.
Written: crates/lent_walks/proofs/LAW.antt for each of KINDS, and proofs/Lib.antt. The text around the places is in law.txt.
"""
import re
import sys
from pathlib import Path

HERE = Path(__file__).resolve().parent

LAWS = 'lent_walks'

WIDTHS = {'u8': 'w8', 'u16': 'w16', 'u32': 'w32', 'u64': 'w64', 'usize': 'w64'}

# ---- text

def nested(items, end='tt'):
    """(a, (b, tt))"""
    text = end
    for item in reversed(items):
        text = f'({item}, {text})'
    return text


def product(items):
    """a × (b × Unit {0})"""
    text = 'Unit {0}'
    for item in reversed(items):
        text = f'{item} × {text}' if text == 'Unit {0}' else f'{item} × ({text})'
    return text


def cons(items):
    return ' ∷ '.join([*items, '[]'])


def places(*numbers):
    return '(' + cons(str(n) for n in numbers) + ')'


def at(path, n):
    """The n-th part of a nested pair."""
    return path + '.1' * n + '.0'


def fill(text, holes):
    return re.sub('⟪(.*?)⟫', lambda m: holes[m.group(1)], text)


def trimmed(text):
    """The text without the names that it uses nowhere."""
    lines = text.split('\n')
    said = '\n'.join(line for line in lines if not line.startswith(('use ', '--')))
    kept = []
    for line in lines:
        m = re.fullmatch(r'use (\S+?)\.\{(.*)\}', line)
        if m:
            names = [n for n in m.group(2).split(', ') if cited(said, n.split(' as ')[-1])]
            line = f"use {m.group(1)}.{{{', '.join(names)}}}" if names else None
        elif line.startswith('use ') and ' as ' in line and not cited(said, line.split(' as ')[-1]):
            line = None
        if line is not None:
            kept.append(line)
    return '\n'.join(kept)


def cited(text, name):
    """An operator's parts stand apart, as in `◌≡◌`; any other name stands whole."""
    parts = [part for part in name.split('◌') if part]
    if '◌' in name:
        return all(part in text for part in parts)
    return re.search(rf'(?<![\w\-·]){re.escape(name)}(?![\w\-])', text)


def write(path, text):
    path.parent.mkdir(parents=True, exist_ok=True)
    path.write_text(trimmed(re.sub(r'\((\w[\w-]*(?:\.[\w-]+)+)\)', r'\1', text)))


# ---- parameters of a law

class Value:
    """A parameter by value, of any type `Pk` of one machine value."""
    lent = slice = False
    word, phrase, last = 'Value', 'a value', 'Unit {0}'

    def __init__(self, k):
        self.type, self.laws, self.v, self.known = f'P{k}', f'p{k}', f'v{k}', f'is{k}'
        self.row, self.denotes, self.mir = f'row {self.type}', f'{self.type}.Value', f'{self.type}.ty'
        self.stated = self.denotes
        self.spells, self.value, self.argument = f'(λ y. {self.laws}.val y ∷ [])', f'{self.laws}.val {self.v}', self.v
        self.slot = self.slot_of_own = f'plain (λ κs. {self.row})'
        self.bound = f' ({self.type} : One) ({self.laws} : Plain {self.type})'
        self.binder = f'({self.v} : {self.denotes}) ({self.known} : Is ({self.row}) {self.v} ({self.value} ∷ []))'
        self.typed = f'(({self.laws}.lawful 𝓛).typed {self.v} _ {self.known}).0'

    def tells(self):
        return f'{self.laws}.tells'

    def stays(self):
        return f'stay_dropped ({self.slot}) yes'

    def goes(self, many):
        return f'Goes-dropped 𝓛 {many} ({self.slot}) yes (λ κs x f. refl)'

    def given(self, k):
        return f"({at('a', k)}) ({at('are', k)})"

    def read(self, path):
        return path


class Slice:
    """A `&[T]` or a `&mut [T]` of numbers."""
    slice, stated, bound = True, 'List ℕ', ''

    def __init__(self, k, lent, element):
        self.lent, self.element = lent, element
        self.word = ('Lent' if lent else '') + {'u8': 'Bytes', 'u16': 'Words'}[element]
        self.phrase = {'u8': 'bytes', 'u16': 'words'}[element] + (' to be changed' if lent else ' to be read')
        self.v, self.lifetime, self.share, self.block, self.offset = f'v{k}', f'κ{k}', f'q{k}', f'b{k}', f'o{k}'
        self.ghost, self.room, self.same = f'γ{k}', f'room{k}', f'same{k}'
        self.value = f'slice_val ({self.block}, {self.offset}) (length {self.v})'
        self.denotes = ('MutBor' if lent else 'Bor') + ' (List ℕ)'
        self.spells = ('mut' if lent else 'shr') + '_slice_vals'
        named = f' ghost_name = {self.ghost};' if lent else ''
        self.argument = f'record {{ ref_ptr = ({self.block}, {self.offset});{named} now = {self.v} }}'
        self.last = 'List ℕ' if lent else 'Unit {0}'
        self.binder = (f'({self.lifetime} : Lft) ({self.share} : Share) ({self.block} {self.offset} : ℕ)' + (f' ({self.ghost} : GName)' if lent else '') +
                       f' ({self.v} : List ℕ) ({self.room} : Room {element} (length {self.v}))')
        self.typed = f'(tt, (tt, (record {{ fits = {self.room}.0 }}, tt)))'

    def pointer(self, lifetime):
        return f"ty_ref {lifetime} {'mut' if self.lent else 'imm'} (ty_int {WIDTHS[self.element]})"

    @property
    def mir(self):
        return f"slice_ty ({self.pointer(f'(named {self.number})')})"

    @property
    def row(self):
        return f"{'MutSlice' if self.lent else 'ShrSlice'} (named {self.number}) {self.lifetime} {self.element}"

    def slot_at(self, number):
        return f"{'SliceRefMutOf' if self.lent else 'SliceRefOf'} ({number} ∷ []) tt (plain (λ κs. {self.element})) (λ κs. tt)"

    @property
    def slot(self):
        return self.slot_at(self.number)

    @property
    def slot_of_own(self):
        return self.slot_at(self.number - 1)

    def tells(self):
        return f"{'mut' if self.lent else 'shr'}_slice_Tells (named {self.number}) ({at('κs', self.number)}) {self.element}"

    def over(self):
        return f'({self.number} ∷ []) tt (plain (λ _. {self.element}))'

    def stays(self):
        return f'gave_slice {self.over()}' if self.lent else f'stay_dropped (shr_slice_of {self.over()}) yes'

    def goes(self, many):
        if self.lent:
            return f'Goes-gave_slice 𝓛 {many} {self.number} tt (plain (λ _. {self.element}))'
        return f'Goes-dropped 𝓛 {many} (shr_slice_of {self.over()}) yes (λ κs x f. refl)'

    def given(self, k):
        a = at('a', k)
        named = f' {a}.ghost_name' if self.lent else ''
        return (f"({at('κs', self.number)}) ({at('qs', self.number)}) {a}.ref_ptr.0 {a}.ref_ptr.1{named} {a}.now"
                f" ({at('are', k)}.0.1)")

    def read(self, path):
        return f'{path}.now'


def parameters(types):
    """Each parameter, with the number of its lifetime where it is a slice (the record's is 0)."""
    found = []
    for k, ty in enumerate(types, 1):
        m = re.fullmatch(r'&(mut )?\[(\w+)\]', ty)
        found.append(Slice(k, bool(m.group(1)), m.group(2)) if m else Value(k))
    for number, p in enumerate((p for p in found if p.slice), 1):
        p.number = number
    return found


# ---- what a law has besides where a second callee tells what the first handed back

TELLING = '''  abbrev pub telling : Ended
  telling = record { signature = record { lifetimes = 0; outlives = []; params = plain (λ κs. row Q) ∷ []; result = plain (λ κs. S T) }; kept = (yes, tt) }

  abbrev pub telling_clauses : {M : Type 1} (𝓤 : Ura M) → Clauses 𝓤 telling
  telling_clauses 𝓤 κs a = record { ghost = Unit {0}; requires = λ _. emp 𝓤; ensures = λ _ r end. fact 𝓤 (I (a.0) r) }

'''

TELLER = '''  abbrev pub Teller : {M : Type 1} {𝓤 : Ura M} (𝓛 : Logic 𝓤) → Contract 𝓤
  Teller {𝓤 = 𝓤} 𝓛 = triple_of 𝓛 (telling.signature) (closing 𝓛 telling (telling_clauses 𝓤))

'''

GOES_TO_THE_TELLER = '''    abbrev on : Q.Value → Val → (Teller 𝓛).Ghost
    on p w = ((tt, tt, tt, (p, tt), (w ∷ [], tt)), tt)

    goes_on : (p : Q.Value) (w : Val) → ent 𝓤 (sem 𝓛 ((row Q).own_val p (w ∷ []))) ((Teller 𝓛).pre (on p w))
    goes_on p w = qed 𝓛 (‵ ((row Q).own_val p (w ∷ [])) ∷ []) ∵ nothing ! $ move ! (1 ∷ 0 ∷ []) $ fjoin ! $ nothing ! $ join ! $ nothing ! $ move ! (1 ∷ 0 ∷ []) $ join ! $ done !

'''

TELL = '''          peeks ! (row Q) (Is (row Q)) (shows 𝓛 (row Q)) p (w ∷ []) (λ isp.
          land ! (from ! (stop !)) (init ! ⟪handed at⟫ refl ((handed.lawful 𝓛).typed p _ isp).0) $
          use1 𝓛 (raw ((Teller 𝓛).pre (on p w))) (goes_on p w) $
          calls_at ! fm (Teller 𝓛) tells (on p w) (and_then ! (load ! (from ! (stop !)) (look ! ⟪handed then⟫ refl)) (no_more !)) (λ w.
          use1 𝓛 (later (some (λ (r : T.Step). (‵ ftrue ⊛ ‵ ((S T).own_val r (w ∷ []))) ⊛ raw (ensured 𝓛 telling (telling_clauses 𝓤) tt (p, tt) tt r)))) (id⊢ 𝓤 _) $ await ! tt $ pick ! (λ r.
          split ! $ move ! (1 ∷ []) $ use1 𝓛 (some (λ (ys : Unit {0} × Unit {0}). ‵ (lasts telling tt (p, tt) ys) ⊛ raw (fact 𝓤 (I p r)))) (id⊢ 𝓤 _) $ pick ! (λ ys. split ! $ move ! (1 ∷ []) $ heard ! (I p r) (λ told.
          fsplit ! $ drop ! $ drop ! $ split ! $ drop ! $
'''


# ---- a law: the walk of all entries whose parameters are of these kinds

class Law:
    def __init__(self, takes, told, types):
        self.takes, self.told, self.parameters = takes, told, parameters(types)
        self.slices = [p for p in self.parameters if p.slice]
        self.lent = [p for p in self.parameters if p.lent]
        self.name = ('' if takes else 'Fresh') + 'Told' * told + (''.join(p.word for p in self.parameters) or 'Alone')
        self.lay_out()

    def lay_out(self):
        """The locals: result, record, parameters, step, the record's copy, a pointer and a slice for each `&mut [T]`."""
        n = len(self.parameters)
        for i, p in enumerate(self.parameters):
            p.local = i + 2
        self.step_local = n + 2
        self.handed_local = n + 2 + self.told
        self.copy_local = self.handed_local + 1
        first = self.copy_local + self.takes
        for j, p in enumerate(self.lent):
            p.pointed, p.again = first + 2 * j, first + 2 * j + 1
        self.locals = first + 2 * len(self.lent)

    def place(self, local, before):
        """Where a local stands among what is had, behind `before` other things: the last local is first."""
        return before + 2 * (self.locals - 1 - local)

    def last_of(self, p):
        return at('zs', self.parameters.index(p) + self.takes)

    def holes(self):
        return {**self.words(), **self.code(), **self.contracts(), **self.types(), **self.tokens(), **self.exit(), **self.steps(), **self.telling()}

    def words(self):
        made = 'the record is copied out and passed by value, ' if self.takes else ''
        return {
            'with': ('with ' + ', '.join(p.phrase for p in self.parameters) if self.parameters else 'with nothing else')
                    + ('' if self.takes else ', that makes a fresh record'),
            'copied': made, 'step told': 'a second callee turns what it answers into the step, ' * self.told, 'many lent': str(len(self.lent)), 'many slices': str(len(self.slices)),
            'many lifetimes': str(len(self.slices) + 1), 'opened': 'H, A' if self.slices else 'H', 'many parameters': str(len(self.parameters) + 1),
        }

    def code(self):
        ps, there = self.parameters, 'place 1 (deref (T.exec.ty) ∷ [])'
        locals_ = ['T.answer.ty', 'ty_ref (named 0) mut (T.exec.written.ty)'] + [p.mir for p in ps] + ['step_type T'] + ['Q.ty'] * self.told + ['T.exec.ty'] * self.takes
        steps = [f'assign (place {self.copy_local} []) (rv_opd (copy ({there})))'] * self.takes
        for p in self.lent:
            locals_ += [p.pointer('erased'), f"slice_ty ({p.pointer('erased')})"]
            steps.append(f'assign (place {p.pointed} []) (addr_of (place {p.local} (field 0 ∷ deref (ty_int {WIDTHS[p.element]}) ∷ [])))')
            steps.append(f'assign (place {p.again} []) (aggregate (copy (place {p.pointed} []) ∷ copy (place {p.local} (field 1 ∷ [])) ∷ []))')
        passed = [self.copy_local] * self.takes + [p.again if p.lent else p.local for p in ps]
        steps.append(f"call callee ({cons(f'copy (place {k} [])' for k in passed)}) (place {self.handed_local} [])")
        steps += [f'call teller (copy (place {self.handed_local} []) ∷ []) (place {self.step_local} [])'] * self.told
        steps.append(f'assign ({there}) (rv_opd (copy (place {self.step_local} (field 0 ∷ []))))')
        steps.append(f'assign (place 0 []) (rv_opd (copy (place {self.step_local} (field 1 ∷ []))))')
        body = 'return'
        for step in reversed(steps):
            body = f'seq ({step}) ({body})' if body != 'return' else f'seq ({step}) return'
        return {'locals': cons(f'local ({ty}) value_local' for ty in locals_), 'body': body}

    def contracts(self):
        ps, first = self.parameters, self.takes
        said = ['a.0.now'] * first + [p.read(at('a', k)) for k, p in enumerate(ps, 1)]
        told = ['a.0'] * first + [p.read(at('a', k)) for k, p in enumerate(ps, first)]
        last_said = [f"{at('end', k)}.now" for k, p in enumerate(ps, 1) if p.lent]
        last_told = [f"{at('end', k)}.now" for k, p in enumerate(ps, first) if p.lent]
        arrow = ['T.exec.Value'] * first + [p.stated for p in ps] + ['T.Step'] + ['List ℕ'] * len(self.lent)
        handed = ['Q.Value' if self.told and x == 'T.Step' else x for x in arrow]

        def apply(before, step, after, of='K'):
            return ' '.join([of] + [f'({x})' for x in before] + [step] + [f'({x})' for x in after])
        return {
            'types': ''.join(p.bound for p in ps) + ' (Q : One) (handed : Plain Q)' * self.told, 'K': ' → '.join(handed + ['Type 0']), 'statement over': ' → '.join(arrow + ['Type 0']),
            'callee slots': cons(['plain (λ κs. X T)'] * first + [p.slot_of_own for p in ps]), 'slots': cons(p.slot for p in ps),
            'callee kept': nested(['yes'] * (len(ps) + first)), 'kept': nested(['yes'] * len(ps)),
            'callee says': apply(told, 'r', last_told), 'self says': apply(said, '(L.step_of end.0.now r)', last_said, 'J' if self.told else 'K'),
            'shown': apply(['h'] * first + [p.v for p in ps], 'r', [self.last_of(p) for p in self.lent], 'J'),
            'known': apply(['h'] * first + [p.v for p in ps], 'r', [self.last_of(p) for p in self.lent]),
        }

    def types(self):
        ps, many = self.parameters, len(self.slices) + 1
        return {
            'stays': nested(['stay_ref (0 ∷ []) tt (plain (λ _. X T))'] + [p.stays() for p in ps]),
            'goes': nested([f'Goes-ref 𝓛 {many} 0 tt (plain (λ _. X T))'] + [p.goes(many) for p in ps]),
            'spells': nested(['mut_vals'] + [p.spells for p in ps]),
            'tells': nested(['mut_Tells (named 0) (κs.0) (X T)'] + [p.tells() for p in ps]),
            'given': ''.join(' ' + p.given(k) for k, p in enumerate(ps, 1)),
            'binders': ''.join(' ' + p.binder for p in ps),
            'Arg': product(['MutBor T.exec.Value'] + [p.denotes for p in ps]),
            'x': nested(['record { ref_ptr = (b, o); ghost_name = γ; now = h }'] + [p.argument for p in ps]),
            'Vals': product(['List Val'] * (len(ps) + 1)),
            'at': nested(['vptr b o ∷ []'] + [p.value + ' ∷ []' for p in ps]),
            'flat': cons(['vptr b o'] + [p.value for p in ps]),
            'others': cons([p.row for p in ps]),
            'Last': product(['Unit {0}'] * self.takes + [p.last for p in ps]),
            'args': nested(['h'] * self.takes + [p.argument for p in ps]),
            'values': nested(['L.xval h ∷ []'] * self.takes + [p.value + ' ∷ []' for p in ps]),
        }

    def tokens(self):
        each = [f'‵ (flft {p.lifetime} {p.share})' for p in self.slices]
        held = 'sem 𝓛 ftrue'
        for p in reversed(self.slices):
            held = f'sep 𝓤 (A.lft {p.lifetime} {p.share}) ({held})'
        lifetimes, shares = [p.lifetime for p in self.slices], [p.share for p in self.slices]
        ks, qs = nested(['κ'] + lifetimes), nested(['q'] + shares)
        return {
            'tokens': '(' + ' ⊛ '.join(each + ['‵ ftrue']) + ')' if each else '‵ ftrue',
            'tokens held': held, 'all tokens': '(' + ' ⊛ '.join(['‵ (flft κ q)'] + each + ['‵ ftrue']) + ')',
            'lifetimes': nested(lifetimes), 'shares': nested(shares), 'all lifetimes': ks, 'all shares': qs,
            'bound': f'(({ks}, {qs}, tt, x, at), tt)',
        }

    def exit(self):
        ps, lent = self.parameters, self.lent
        finals = [f'‵ (fsep (finally {p.element} {p.ghost} {self.last_of(p)}) (fbor {p.lifetime} (LentBody (Arr (Holey (mem {p.element})) (length {p.v})) {p.block} {p.offset} {p.ghost})))'
                  for p in reversed(lent)]
        cell = ['‵ (fobs γ ((X T).coded.code (L.exec_of r)))', '‵ (fbor κ (LentBody (mem (X T)) b o γ))', '‵ (flft κ q)']
        same = ''.join(f' ({p.same} : length ({self.last_of(p)}) ≡ length {p.v})' for p in lent)
        return {
            'at exit': cons(cell + [self.tokens()['tokens']] + finals),
            'same': same + ' →' if same else '', 'sames': ''.join(' ' + p.same for p in lent),
            'lasts': nested(['L.exec_of r'] + [self.last_of(p) if p.lent else 'tt' for p in ps]),
            'fits': nested(['tt'] + [p.same if p.lent else 'tt' for p in ps]),
            'give back': ''.join('move ! (2 ∷ 0 ∷ []) $ fjoin ! $ ' if p.lent else 'nothing ! $ fjoin ! $ ' for p in reversed(ps)),
            'is a record': 'Is (X T) h (L.xval h ∷ []) → ' * self.takes, 'is': ' is' * self.takes, 'was': ' was' * self.takes,
            'own the copy': 'owned ! (X T) (Is (X T)) (L.x_makes 𝓛) h _ is $ fjoin ! $ ' * self.takes,
        }

    def telling(self):
        """What a second callee needs, which makes the step of what the first handed back."""
        if not self.told:
            blank = dict.fromkeys(('teller', 'telling', 'Teller', 'Said', 'goes to the teller', 'told known', 'tell', 'told arrow', 'told arrow 𝓣', 'known too'), '')
            return blank | {'handed': 'S T', 'Handed': 'T.Step', 'Shown': 'Known', 'e': 'e', 'p': 'r'}
        c, first = self.contracts(), self.takes
        over = ['h'] * first + [p.v for p in self.parameters]
        kinds = ['T.exec.Value'] * first + [p.stated for p in self.parameters]
        after = [f'after{k}' for k in range(len(self.lent))]
        bound = ''.join(f' ({v} : {ty})' for v, ty in zip(over, kinds)) + ' (p : Q.Value) (r : T.Step)' + ''.join(f' ({v} : List ℕ)' for v in after)
        both = bound + f" → {' '.join(['K', *over, 'p', *after])} → I p r → {' '.join(['J', *over, 'r', *after])}"
        lasts = [self.last_of(p) for p in self.lent]
        given = ' '.join(over + ['p', 'r'] + [f'({x})' for x in lasts])
        return {
            'handed': 'row Q', 'Handed': 'Q.Value', 'Shown': 'Shown', 'e': f'(both {given} e told)', 'p': 'p',
            'teller': f" (teller : Name) (I : Q.Value → T.Step → Type 0) (J : {c['statement over']}) (both :{both})",
            'telling': TELLING, 'Teller': TELLER, 'Said': '\n    abbrev Shown : T.Step → Last → Type 0\n    Shown r zs = ' + c['shown'] + '\n',
            'goes to the teller': GOES_TO_THE_TELLER, 'told known': ' (tells : Triple 𝓤 (C teller) (Teller 𝓛))',
            'told arrow': ' → Triple 𝓤 (C teller) (Teller 𝓛)', 'told arrow 𝓣': ' → Triple 𝓤 (𝓣.C teller) (Teller 𝓛)', 'known too': ' tells',
            'tell': fill(TELL, {'handed at': str(self.place(self.handed_local, len(self.lent) + 7)), 'handed then': str(self.place(self.handed_local, len(self.lent) + 7))}),
        }

    def lend(self):
        """The record is copied out, and each `&mut [T]` is made anew from its pointer and its length."""
        lines = []
        if self.takes:
            lines.append(
                f'assigns ! (of_opd ! (load ! (from ! (hop ! (look ! {self.place(1, 5)} refl) (stop !))) (look_raw ! 0 refl))) (from ! (stop !))'
                f' (init ! {self.place(self.copy_local, 5)} refl ((L.x_lawful 𝓛).typed h _ was).0) $')
        for p in self.lent:
            here, pointer, again = (self.place(k, 5) for k in (p.local, p.pointed, p.again))
            lines.append(
                f'assigns ! (addr ! (from ! (fld ! refl (hop ! (look_in ! {here} (sub ! 0 refl (whole !))) (stop !))))) (from ! (stop !))'
                f' (init ! {pointer} refl (tt, tt)) $')
            lines.append(
                f'assigns ! (agg ! (and_then ! (load ! (from ! (stop !)) (look ! {pointer} refl)) (and_then ! (load ! (from ! (fld ! refl (stop !)))'
                f' (look_in ! {here} (sub ! 1 refl (whole !)))) (no_more !)))) (from ! (stop !)) (init ! {again} refl {p.typed}) $')
        return ''.join(f'          {line}\n' for line in lines)

    def operands(self):
        text = '(no_more !)'
        for local in reversed([self.copy_local] * self.takes + [p.again if p.lent else p.local for p in self.parameters]):
            text = f'(and_then ! (load ! (from ! (stop !)) (look ! {self.place(local, 6)} refl)) {text})'
        return text

    def take_lasts(self):
        dropped = 'fsplit ! $ drop ! $'
        return ' '.join([dropped] * self.takes + [
            f'fsplit ! $ fsplit ! $ fsplit ! $ move ! (1 ∷ []) $ feq_l ! (λ {p.same}. fjoin ! $ move ! (1 ∷ []) $' if p.lent else dropped for p in self.parameters])

    def steps(self):
        m, count = len(self.lent), self.locals
        stored, left = m + 7, m + 4
        # each local, each `&mut [T]`, and seven steps of law.txt open a function
        opened = count + m + 7 + 5 * self.told
        return {
            'alloc': ''.join(f'alloc1 ! (λ l{i}. ' for i in range(count)),
            'pass': ' '.join([f'pass1 ! (init ! {self.place(1, 0)} refl (tt, tt)) $'] + [f'pass1 ! (init ! {self.place(p.local, 0)} refl {p.typed}) $' for p in self.parameters]),
            'borrow': places(2 * count, 2 * count + 1, 2 * count + 2), 'others and tokens': places(5 + 2 * count, 6 + 2 * count),
            'lend': self.lend(), 'operands': self.operands(), 'take lasts': self.take_lasts(),
            'step at': str(self.place(self.step_local, stored)), 'step local': f'l{self.step_local}', 'record at': str(self.place(1, stored)),
            'result at': str(self.place(0, stored)), 'cell at': str(m + 2), 'closing': places(m + 2, 0, m + 3, m + 4, m + 5),
            'result left': str(self.place(0, left)), 'forget': ' '.join(f'forget ! {self.place(i, left)} refl $' for i in reversed(range(count))),
            'free': ' '.join(f'move ! {places(self.place(i, left), self.place(i, left) + 1)} $ free1 ! $' for i in range(count)),
            'kept at exit': places(*range(4 + m)), 'close': ')' * opened,
        }


# whether the callee takes the record (or makes a fresh one), whether a second callee tells the step, and the parameters behind the record
KINDS = [
    (1, 0, []), (1, 0, ['u32']), (1, 0, ['u32', 'u32']), (1, 0, ['&mut [u16]']), (1, 0, ['u32', '&[u16]', '&mut [u16]']), (1, 0, ['u32', '&mut [u16]', '&[u16]']),
    (1, 1, []), (1, 1, ['u32']), (1, 1, ['u32', 'u32']), (1, 1, ['&mut [u16]']), (1, 1, ['u32', '&[u16]', '&mut [u16]']), (1, 1, ['u32', '&mut [u16]', '&[u16]']),
    (0, 0, ['Rig', 'table']), (0, 0, ['&[u8]']),
]


def main():
    if len(sys.argv) != 1:
        print(__doc__.strip())
        sys.exit(0 if sys.argv[1] in ('-h', '--help') else 2)
    text = (HERE / 'law.txt').read_text()
    laws = [Law(*kind) for kind in KINDS]
    folder = HERE.parent.parent / 'crates' / LAWS / 'proofs'
    for law in laws:
        write(folder / f'{law.name}.antt', fill(text, law.holes()))
    write(folder / 'Lib.antt', ''.join(f'pub mod {name}\n' for name in ['Lent', *sorted(law.name for law in laws)]))
    print(f'{LAWS}: {len(laws)} laws')


main()
