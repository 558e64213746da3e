"""What is known at one place of the code: of each variable, of the stack's bytes, and of the record's lengths."""
from .bounds import Bounds
from .branches import Choice
from .code import Variable
from .halves import Held
from .meeting import Meeting
from .terms import LENGTHS, plus, turned
from .values import LIMIT, M64, MIXED, Value, number

# What is known of how numbers came about: of these nothing is forgotten while they are few.
ORIGINS = ("shifts", "quotients", "multiples", "complements", "products", "scales", "remainders", "masks", "answers", "choices")
FEW_ORIGINS = 16


class State(Bounds):
    """`variables` have what is known of each; `memory` what stores left, by the stack's byte.
    `words` are the words of the stack in which an address may be, with its region, or None for a number.
    `least` and `most` bound the record's lengths; `sure` is the least length that the verifier knows too.
    `facts` say of terms and a region what may be added to the terms so that the sum is still at most the region's length, and
    `floors` of such terms what they are at least, as a whole number, not modulo 2^64. `shifts` say of terms which number it was
    that was shifted to the left, and by how much; `quotients` of which numbers they are the quotient, `multiples` that they are such
    a quotient times the divisor again, `complements` of terms and a width that they are what this lacks to 2^width, `products` of which
    number they are which multiple, and `scales` with which factor and what added they are at most a region's length. `remainders` say
    of which length, with a constant added, they are the remainder by what, and `masks` of which they are the `and` or the `or` with
    what; `grid` by what a length has which remainder. `answers` say of a helper's answer between which numbers it tells something,
    which number it is then, and of pairs of numbers that the first is at most the second. `choices` say of terms on which of two ways that met they are which
    number. States share these last eleven: who changes one puts another in its place."""
    __slots__ = ("variables", "memory", "words", "least", "most", "sure", "facts", "floors", "grid", "names", *ORIGINS)

    def __init__(self):
        self.variables: dict[Variable, Value] = {}
        self.memory: dict[int, Held] = {}
        self.words: dict[int, object] = {}
        self.least, self.most = dict.fromkeys(LIMIT, 0), dict(LIMIT)
        self.sure = dict.fromkeys(LIMIT, 0)
        self.facts: dict[tuple, int] = {}
        self.floors: dict[tuple, int] = {}
        self.grid = dict.fromkeys(LIMIT, (1, 0))
        self.shifts: dict[tuple, tuple[int, Value]] = {}
        self.quotients: dict[tuple, tuple[Value, Value]] = {}
        self.multiples: dict[tuple, tuple[Value, Value]] = {}
        self.complements: dict[tuple, tuple[Value, Value]] = {}
        self.products: dict[tuple, tuple[Value, int]] = {}
        self.scales: dict[tuple, tuple[str, int, int]] = {}
        self.remainders: dict[tuple, tuple[str, int, int]] = {}
        self.masks: dict[tuple, tuple[Value, str, int]] = {}
        self.answers: dict[tuple, tuple] = {}
        self.choices: dict[tuple, Choice] = {}
        self.names: dict[int, Value] = {}

    def copy(self):
        s = State.__new__(State)
        s.variables, s.memory, s.words = self.variables.copy(), self.memory.copy(), self.words.copy()
        s.least, s.most, s.sure = self.least.copy(), self.most.copy(), self.sure.copy()
        s.facts, s.floors, s.grid = self.facts.copy(), self.floors.copy(), self.grid
        s.shifts, s.quotients, s.multiples = self.shifts, self.quotients, self.multiples
        s.complements, s.products, s.scales, s.remainders = self.complements, self.products, self.scales, self.remainders
        s.masks, s.answers, s.choices, s.names = self.masks, self.answers, self.choices, self.names
        return s

    def join(self, other):
        """What is known where two ways meet."""
        return Meeting(self, other, State()).state(ORIGINS)

    def note(self, origin, terms, what):
        """How a number came about that has these terms, or terms and a width."""
        setattr(self, origin, {**getattr(self, origin), terms: what})

    # ---- what is forgotten

    def keep(self, names):
        """Forgets variables but these, and what is known of numbers that nothing has."""
        variables, used = self.variables, set(LENGTHS)
        self.variables = kept = {name: variables[name] for name in names if name in variables}
        self.names = {}
        for v in kept.values():
            for term, _ in v.terms or ():
                used.add(term)
        for _, v in self.memory.values():
            if v is not None and v.terms:
                used.update([term for term, _ in v.terms])
        # Most are of one number or two, which are looked for here at once.
        self.facts = {key: k for key, k in self.facts.items()
                      if (terms := key[0])[0][0] in used and terms[-1][0] in used and (len(terms) < 3 or are_used(terms, used))}
        self.floors = {terms: k for terms, k in self.floors.items()
                       if terms[0][0] in used and terms[-1][0] in used and (len(terms) < 3 or are_used(terms, used))}
        made = len(self.shifts) + len(self.quotients) + len(self.multiples) + len(self.complements) + len(self.products)
        if made + len(self.scales) + len(self.remainders) + len(self.masks) + len(self.answers) + len(self.choices) > FEW_ORIGINS:
            self._keep_origins(used)

    def _keep_origins(self, used):
        """Forgets how numbers came about that nothing has, not even what others came of."""
        known = {origin: getattr(self, origin) for origin in ORIGINS}
        kept: dict[str, dict] = {origin: {} for origin in ORIGINS}
        more = True
        while more:
            more = False
            for origin, held in known.items():
                for terms, what in held.items():
                    if terms not in kept[origin] and are_used(terms[0] if origin == "complements" else terms, used):
                        kept[origin][terms] = what
                        used.update([term for part in what if isinstance(part, Value) for term, _ in part.terms or ()])
                        more = True
        for origin, held in kept.items():
            setattr(self, origin, held)

    def name_sum(self, terms):
        """Gives a sum of many numbers a new number, by which it is known from now on."""
        new = number(0, M64).terms
        without = turned(terms)

        def renamed(others):
            rest = plus(others, without) if others is not None and len(others) >= len(terms) else None
            return others if rest is None or len(rest) > len(others) - len(terms) else plus(rest, new)

        self.variables = {name: v._replace(terms=renamed(v.terms)) for name, v in self.variables.items()}
        self.memory = {at: held if held.value is None else Held(held.size, held.value._replace(terms=renamed(held.value.terms))) for at, held in self.memory.items()}
        self.facts = {(renamed(key), region): k for (key, region), k in self.facts.items()}
        self.floors = {renamed(key): k for key, k in self.floors.items()}

    # ---- the stack

    def forget(self, lo, hi):
        """Bytes of the stack are written, and nothing is known of them."""
        for at in [at for at, held in self.memory.items() if at < hi and lo < at + held.size]:
            del self.memory[at]

    def mark(self, lo, hi, region, known):
        """Words of the stack get an address of a region, or a number; they may get it, if the place is not known."""
        for at in range(max(lo, 0) & -8, min(hi, 512), 8):
            self.words[at] = region if known or self.words.get(at, region) == region else MIXED

    def kind_at(self, lo, hi):
        """What the words of the stack between have: one kind of addresses, numbers, or one of several."""
        kinds = {self.words[at] for at in range(max(lo, 0) & -8, min(hi, 512), 8) if at in self.words}
        return None if not kinds else kinds.pop() if len(kinds) == 1 else MIXED

    def addresses(self, lo, hi):
        """The runs of bytes between that have an address on all ways, each with its first byte and the one after its last."""
        runs = []
        for at in range(max(lo, 0) & -8, min(hi, 512), 8):
            if self.words.get(at, MIXED) not in (None, MIXED):
                first = runs.pop()[0] if runs and runs[-1][1] == at else at
                runs.append((first, at + 8))
        return runs

    def known_byte(self, place):
        """A byte of the stack, if a store left a constant there."""
        for at in range(place, place - 8, -1):
            held = self.memory.get(at)
            if held and at + held.size > place:
                if held.value is not None and held.value.is_const() and held.value.region is None:
                    return held.value.lo >> 8 * (place - at) & 255
                return None
        return None


def are_used(terms, used):
    for term, _ in terms or ():
        if term not in used:
            return False
    return True
