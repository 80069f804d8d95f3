"""What statements are made for, and how often in a case."""
from dataclasses import dataclass
from typing import Callable

from expressions.answers import Statement
from expressions.maker import Maker
from expressions.sizes import size
from expressions.tree import (
    BOUND, GREATEST_SCALE, MOST_DIGITS, QUOTIENT_SCALE, And, Between, Chain, Compare, InList, IsNull, Like, Not, Number,
    Numeral, Or, Signed, String, number_text,
)


def wide_item(maker):
    """A value whose result has 38 digits on some row: a product, a sum or a quotient."""
    dice, pool = maker.dice, maker.exact
    base = maker.number(dice.below(2), pool)
    greatest, scale = max(maker.greatest(base), 1), size(base).scale
    match dice.below(3):
        case 0:
            least = BOUND // 10 // greatest + 1
            factor = dice.between(least, max(least, (BOUND - 1) // greatest))
            return maker.pair("*", base, maker.numeral(Number(factor, dice.between(0, GREATEST_SCALE - scale)), pool))
        case 1:
            other = dice.between(0, GREATEST_SCALE)
            room = (BOUND - 1 - greatest * 10 ** max(other - scale, 0)) // 10 ** max(scale - other, 0)
            least = BOUND // 10 // 10 ** max(scale - other, 0)
            units = room if dice.chance(30) else dice.between(least, max(least, room))
            return maker.pair(dice.one_of("+-"), base, maker.numeral(Number(units, other), pool))
        case _:
            behind = MOST_DIGITS - len(str(greatest)) - (max(scale, QUOTIENT_SCALE) - scale)
            return maker.pair("/", base, maker.numeral(Number(1, min(max(behind, 0), GREATEST_SCALE)), pool))


def fine_item(maker):
    """A value of scale 18: a product, a sum or a quotient."""
    dice, pool = maker.dice, maker.full
    base = maker.number(dice.below(2), maker.exact)
    scale = GREATEST_SCALE - size(base).scale
    factor = maker.numeral(Number(dice.below(10 ** dice.between(1, 9)), scale), maker.whole)
    match dice.below(4):
        case 0:
            return maker.pair("*", base, factor)
        case 1:
            other = maker.numeral(Number(dice.below(10**GREATEST_SCALE), GREATEST_SCALE), maker.whole)
            return maker.pair(dice.one_of("+-"), base, other)
        case 2:
            return Chain(base, (("*", factor), ("/", maker.leaf(pool))))
        case _:
            return Chain(maker.pair("*", base, factor), ((dice.one_of("+-"), maker.number(1, pool)),))


def quotient_item(maker):
    """A quotient, alone or in a longer expression."""
    dice, pool = maker.dice, maker.full
    made = Chain(maker.number(dice.below(2), pool), (("/", maker.number(dice.below(2), pool)),))
    match dice.below(4):
        case 0:
            return maker.pair(dice.one_of("+-"), made, maker.number(1, pool))
        case 1:
            return Chain(made.first, made.others + ((dice.one_of("*/"), maker.leaf(pool)),))
        case _:
            return made


def guarded_quotient(maker):
    """A quotient in WHERE, whose divisor an early conjunct keeps from being zero, or nearly so."""
    dice, pool = maker.dice, maker.exact
    column = dice.one_of(pool.columns)
    values = [Number(0, 0)] + (maker.values_of(column) if dice.chance(40) else [])
    zero = maker.literal_of(dice.one_of(values), pool)
    divisor = column if zero == Numeral("0") else Chain(column, (("-", zero),))
    ratio = Chain(maker.number(dice.below(2), pool), (("/", divisor),))
    tests = [Compare("<>", column, zero), Not(Compare("=", column, zero)), InList(True, column, (zero, zero))]
    tests.append(Compare(dice.one_of("<>"), column, zero))
    return beside(maker, dice.one_of(tests), ratio)


def guarded_product(maker):
    """A product in WHERE, which an early conjunct keeps in bounds, or nearly so."""
    dice, pool = maker.dice, maker.exact
    column = dice.one_of(pool.columns)
    factor = Numeral(str(BOUND // max(maker.greatest(column), 1) * dice.between(1, 9)))
    bound = maker.literal_of(dice.one_of(maker.values_of(column) or [Number(0, 0)]), pool)
    tests = [Compare(maker.operator(), column, bound), IsNull(False, column)]
    tests.append(Between(False, column, Signed("-", maker.literal(pool)), bound))
    return beside(maker, dice.one_of(tests), maker.pair("*", column, factor))


def beside(maker, early, value):
    """A statement whose condition has an early conjunct, a comparison of a value, and perhaps a test."""
    dice, pool = maker.dice, maker.exact
    parts = [early, Compare(maker.operator(), value, maker.near(value, pool))]
    if dice.chance(30):
        parts.append(maker.test(pool))
    parts = dice.mixed(parts)
    is_nested = len(parts) > 2 and dice.chance(40)
    return maker.chosen_by(pool, And((And(tuple(parts[:2])), *parts[2:]) if is_nested else tuple(parts)))


def late_without_column(maker):
    """A conjunct that names no column, beside others."""
    parts = maker.dice.mixed([maker.without_column(), maker.test(maker.exact)])
    return maker.chosen_by(maker.exact, And(tuple(parts)) if maker.dice.chance(80) else maker.without_column())


def not_in_with_null(maker):
    """NOT IN with NULL among its members, alone or where it decides less."""
    dice = maker.dice
    pool = dice.one_of([maker.whole, maker.exact])
    test = maker.in_list(pool, True, True)
    other = maker.test(pool)
    forms = [test, Not(test), Or((test, other)), Or((other, Not(test))), And((Not(test), other))]
    return maker.chosen_by(pool, dice.one_of(forms))


def at_some_place(maker, made):
    """A value that may raise, as a result column without or with an early conjunct, or in WHERE."""
    dice, pool = maker.dice, maker.exact
    kind = dice.below(20)
    if kind < 9:
        return Statement(maker.items(pool, made))
    if kind < 14:
        return Statement(maker.items(pool, made), maker.test(pool))
    tests = [Compare(maker.operator(), made, maker.near(made, pool)), IsNull(dice.chance(50), made)]
    tests.append(Between(dice.chance(50), maker.leaf(pool), made, maker.leaf(pool)))
    test = dice.one_of(tests)
    return maker.chosen_by(pool, test if dice.chance(50) else And(tuple(dice.mixed([test, maker.test(pool)]))))


def zero_of(maker):
    """A value that is zero on some row."""
    dice, pool = maker.dice, maker.exact
    column = dice.one_of(pool.columns)
    kinds = [column, column, Numeral("0.00"), Chain(column, (("*", Numeral("0")),))]
    return dice.one_of([*kinds, Chain(column, (("-", maker.near(column, pool)),))])


def division_by_zero(maker):
    """A quotient whose divisor is zero on some row."""
    return at_some_place(maker, Chain(maker.number(maker.dice.below(2), maker.exact), (("/", zero_of(maker)),)))


def zero_before_bound(maker):
    """A division by zero whose numerator is out of bounds too."""
    dice = maker.dice
    column = dice.one_of(maker.exact.columns)
    wide = Numeral(str(dice.between(BOUND // 10**6, BOUND - 1)))
    zeros = [Numeral("0"), Numeral("0.000"), Chain(column, (("-", column),)), Chain(Numeral("0"), (("*", column),))]
    zero = dice.one_of(zeros)
    return at_some_place(maker, Chain(dice.one_of([wide, Signed("-", wide)]), (("/", zero),)))


def great_product(maker):
    """A product out of bounds."""
    dice, pool = maker.dice, maker.exact
    factor = maker.numeral(Number(dice.below(10**30), 0), pool)
    return at_some_place(maker, Chain(maker.number(1, pool), (("*", dice.one_of(pool.columns)), ("*", factor))))


def great_sum(maker):
    """A sum out of bounds, whose operands are in bounds."""
    numeral = Numeral(str(BOUND - 1 - maker.dice.below(10 ** maker.dice.between(1, 4))))
    return at_some_place(maker, maker.pair("+", numeral, maker.number(1, maker.whole)))


def great_operand(maker):
    """A sum one of whose operands is out of bounds at the scale of the other; some such sums would be small."""
    dice, pool = maker.dice, maker.exact
    scale = dice.between(2, GREATEST_SCALE)
    least = BOUND // 10**scale
    whole = Numeral(str(least + dice.below(least) if dice.chance(50) else least))
    if dice.chance(50):
        close = Numeral(number_text(Number(BOUND - 1 - dice.below(10**scale), scale)))
        made = Chain(whole, (("-", close), ("+", maker.leaf(pool))))
    else:
        base = whole if dice.chance(40) else maker.pair("*", dice.one_of(pool.columns), whole)
        fine = [column for column in pool.columns if column.type.scale >= scale]
        other = dice.one_of(fine) if fine else Numeral(number_text(Number(dice.below(10**scale), scale)))
        made = maker.pair(dice.one_of("+-"), base, other)
    return at_some_place(maker, made)


def great_numerator(maker):
    """A quotient whose numerator is out of bounds."""
    dice, pool = maker.dice, maker.exact
    scale = dice.between(8, GREATEST_SCALE)
    divisors = [Numeral(number_text(Number(dice.between(1, 10**scale), scale))), dice.one_of(pool.columns)]
    return at_some_place(maker, Chain(maker.number(1, pool), (("/", dice.one_of(divisors)),)))


def ratio_by_column(maker):
    """A column, and a comparison of a quotient by it."""
    column = maker.dice.one_of(maker.exact.columns)
    ratio = Chain(maker.number(maker.dice.below(2), maker.exact), (("/", column),))
    return column, Compare(maker.operator(), ratio, maker.near(ratio, maker.exact))


def strict_and(maker):
    """A quotient under AND inside a conjunct: the parts before it don't keep it from raising."""
    column, late = ratio_by_column(maker)
    both = And((Compare("<>", column, Numeral("0")), late))
    test = maker.test(maker.exact)
    return maker.chosen_by(maker.exact, maker.dice.one_of([Not(both), Or((both, test)), Or((test, both))]))


def strict_or(maker):
    """A quotient under OR: the parts before it don't keep it from raising."""
    column, late = ratio_by_column(maker)
    zero = Compare("=", column, Numeral("0"))
    forms = [Or((zero, late)), Or((late, zero)), Not(Or((zero, late))), Or((IsNull(False, column), zero, late))]
    return maker.chosen_by(maker.exact, maker.dice.one_of(forms))


def strict_predicate(maker):
    """A quotient in a list or as a bound, which is evaluated though the operands before it decide."""
    ratio = ratio_by_column(maker)[1].left
    is_negated = maker.dice.chance(50)
    value = maker.literal(maker.exact)
    forms = [InList(is_negated, value, (value, ratio)), Between(is_negated, value, Numeral("100000"), ratio)]
    return maker.chosen_by(maker.exact, maker.dice.one_of(forms))


def beside_a_false_one(maker):
    """Late conjuncts, of which one raises where another is false: all are evaluated."""
    column, late = ratio_by_column(maker)
    tiny = Signed("-", Numeral("1" + "0" * 20))
    false_ones = [
        Compare("=", Numeral("1"), Numeral("2")),
        Like(False, String("ab"), "a_b"),
        Compare("<", Chain(column, (("/", Numeral("1")),)), tiny),
        IsNull(False, Chain(Numeral("1"), (("/", Numeral("2")),))),
    ]
    return maker.chosen_by(maker.exact, And(tuple(maker.dice.mixed([maker.dice.one_of(false_ones), late]))))


def first_in_text(maker):
    """An expression with two exceptions, of which the first in the text stands."""
    dice, pool = maker.dice, maker.exact
    zero = Chain(maker.leaf(pool), (("/", dice.one_of([Numeral("0"), Numeral(".0")])),))
    great = Chain(Numeral("9" * dice.between(30, 38)), (("*", Numeral("7" * dice.between(10, 20))),))
    first, second = dice.mixed([zero, great])
    return at_some_place(maker, Chain(first, ((dice.one_of("+-"), second),)))


def where_before_items(maker):
    """A raise of WHERE, beside a result column that would raise another exception."""
    dice, pool = maker.dice, maker.exact
    great = Chain(Numeral("9" * 38), ((dice.one_of("+*"), Numeral(str(dice.between(2, 99)))),))
    zero = Chain(maker.leaf(pool), (("/", Numeral("0")),))
    item, tested = dice.mixed([great, zero])
    return Statement(maker.items(pool, item), Compare(maker.operator(), tested, maker.leaf(pool)))


@dataclass(frozen=True)
class Recipe:
    """How a statement is made, and what marks it must have."""

    make: Callable
    needs: str = ""


def items_of(pool_name, make=None):
    """Statements without WHERE over a pool, with a result column that is made."""
    def statement(maker):
        given = [make(maker)] if make else []
        return Statement(maker.items(getattr(maker, pool_name), *given))
    return statement


def chosen_by(pool_name, make):
    """Statements over a pool with a condition that is made."""
    def statement(maker):
        pool = getattr(maker, pool_name)
        return maker.chosen_by(pool, make(maker, pool))
    return statement


def alone_or_joined(make):
    """A test alone, under NOT, or beside another."""
    def condition(maker, pool):
        test = make(maker, pool)
        forms = [test, test, Not(test), And((test, maker.test(pool))), Or((test, maker.test(pool)))]
        return maker.dice.one_of(forms)
    return condition


def some_comparison_of_texts(maker, pool):
    """A comparison of texts."""
    return maker.text_comparison()


def some_like(maker, pool):
    """LIKE with one % or none."""
    return maker.like(maker.dice.below(2))


def like_with_several(maker, pool):
    """LIKE with two % or three."""
    return maker.like(maker.dice.between(2, 3))


def deep_logic(maker, pool):
    """A condition of three levels."""
    return maker.logic(3, pool)


def deep_number(maker):
    """A value of three levels."""
    return maker.number(3, maker.full)


def some_in_list(maker, pool):
    """IN or NOT IN, with or without NULL."""
    return maker.in_list(pool, maker.dice.chance(30), maker.dice.chance(50))


PLAIN = [
    *[Recipe(items_of("whole"))] * 4,
    *[Recipe(items_of("exact"))] * 3,
    *[Recipe(items_of("exact", wide_item), "result of 38 digits")] * 2,
    *[Recipe(items_of("exact", fine_item), "result of scale 18")] * 2,
    *[Recipe(items_of("full", quotient_item))] * 2,
    Recipe(items_of("full", quotient_item), "quotient cut downwards"),
    Recipe(items_of("full", quotient_item), "quotient cut upwards"),
    *[Recipe(items_of("full", deep_number))] * 2,
]

CHOOSING = [
    *[Recipe(chosen_by("whole", Maker.comparison))] * 2,
    Recipe(chosen_by("exact", Maker.comparison)),
    *[Recipe(chosen_by("whole", alone_or_joined(some_comparison_of_texts)))] * 2,
    Recipe(chosen_by("whole", alone_or_joined(some_like))),
    Recipe(chosen_by("whole", alone_or_joined(like_with_several)), "LIKE with several %"),
    Recipe(chosen_by("exact", alone_or_joined(some_in_list))),
    Recipe(not_in_with_null),
    Recipe(chosen_by("exact", alone_or_joined(Maker.between))),
    Recipe(chosen_by("full", alone_or_joined(Maker.null_test))),
    *[Recipe(chosen_by("whole", deep_logic))] * 3,
    Recipe(chosen_by("full", deep_logic)),
    Recipe(guarded_quotient, "raise that an early conjunct prevents"),
    Recipe(guarded_product, "raise that an early conjunct prevents"),
    Recipe(late_without_column),
]

RAISING = [
    Recipe(division_by_zero, "division by zero"),
    Recipe(zero_before_bound, "division by zero"),
    Recipe(great_product, "product"),
    Recipe(great_sum, "sum"),
    *[Recipe(great_operand, "operand of a sum")] * 2,
    Recipe(great_numerator, "numerator"),
    Recipe(strict_and, "raised by WHERE"),
    Recipe(strict_or, "raised by WHERE"),
    Recipe(strict_predicate, "raised by WHERE"),
    Recipe(beside_a_false_one, "raise beside a false late conjunct"),
    Recipe(first_in_text),
    Recipe(where_before_items, "raised by WHERE"),
]
