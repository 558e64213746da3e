"""Sums of unknown numbers: each of these with its factor, in the order of their numbers."""
import itertools

# Unknown numbers have a number of their own, from 0 on; these two are the record's lengths.
VALUE_LENGTH, KEY_LENGTH = -1, -2
fresh = itertools.count().__next__
MOST_TERMS = 12

Terms = tuple[tuple[int, int], ...]
LENGTH_TERMS: dict[str, Terms] = {"value": ((VALUE_LENGTH, 1),), "key": ((KEY_LENGTH, 1),)}
LENGTHS = frozenset([VALUE_LENGTH, KEY_LENGTH])
REGION_OF = {terms: region for region, terms in LENGTH_TERMS.items()}


def has_length(terms):
    """Whether a length is among them."""
    return bool(terms) and terms[0][0] < 0


def region_of(terms):
    """The region whose length they are, or None."""
    return REGION_OF.get(terms) if terms and terms[0][0] < 0 else None


def plus(x, y):
    """The terms of a sum of two."""
    if not y:
        return x or ()
    if not x:
        return y
    if x[-1][0] < y[0][0]:
        return x + y
    if y[-1][0] < x[0][0]:
        return y + x
    factors = dict(x)
    for term, factor in y:
        factors[term] = factors.get(term, 0) + factor
    return tuple(sorted([pair for pair in factors.items() if pair[1]]))


def parts_of(keys):
    """The unknown numbers that are in sums of several among these."""
    return {term for terms in keys if len(terms) > 1 for term, _ in terms}


def sum_in(x, y, parts=None):
    """The terms of a sum of two; None where they are too many, or it is sure to be none of the sums that have these parts."""
    if not x or not y:
        return x or y or ()
    if parts is not None and len(x) == 1 == len(y) and x[0][0] != y[0][0] and not (x[0][0] in parts and y[0][0] in parts):
        return None
    terms = plus(x, y)
    return terms if len(terms) <= MOST_TERMS else None


def turned(terms):
    """The terms of the negated number."""
    if not terms:
        return terms
    if len(terms) == 1:
        (term, factor), = terms
        return ((term, -factor),)
    return tuple([(term, -factor) for term, factor in terms])
