"""Decimals as integers: with 2 decimal places 12.34 is stored as 1234. Nothing is rounded, except floats as stated."""

from __future__ import annotations

import array
import decimal
import fractions
import math
import numbers
from typing import Any, Iterable, Optional

from .arrays import NO_NUMBERS, SIGN, TOP, Given, from_ints, ints, is_array, items_of, np, plain, shown, types_of, whole

MOST_DECIMALS = 9
# a float stands for a decimal if it is within one part in this number of it
PARTS = 10**9
# floats above this number aren't multiplied exactly, and decimals of more digits than 15 aren't found among floats
EXACT, MOST_FOUND = 1 << 52, 10**15
# decimal places are found among floats if each is this near to its decimal, relative to it: two units in a float's last
# place, as sums of two floats may be away, and less than decimals of 15 digits are from one another
NEAR = 2.0**-51
FLOATS_AT_ONCE = 1 << 14
# wide enough for every key, payload and sum
WIDE = decimal.Context(prec=100, Emax=decimal.MAX_EMAX, Emin=decimal.MIN_EMIN)
# a mean that isn't a finite decimal has this many digits
DIGITS_OF_A_MEAN = 40
# an integer of 64 bits has fewer digits
MOST_DIGITS = 40
LIMITS = {"q": (-SIGN, SIGN - 1, "a signed"), "Q": (0, TOP - 1, "an unsigned")}


def checked_decimals(decimals: Any, name: str) -> int:
    """A number of decimal places. Raises ValueError if it isn't 0 to `MOST_DECIMALS`."""
    if not 0 <= whole(decimals, name) <= MOST_DECIMALS:
        raise ValueError(f"{name} must be 0 to {MOST_DECIMALS}, not {shown(decimals)}")
    return int(decimals)


def places_text(decimals: int) -> str:
    """A number of decimal places in words."""
    return f"{decimals} decimal place{'' if decimals == 1 else 's'}"


class Scaled(Given):
    """Decimals as an array of integers, each of which stands for itself divided by 10**`decimals`.

    Every way into a table takes one in place of an array. A table with other decimal places rescales it exactly.
    """

    __slots__ = ("numbers", "decimals")

    def __init__(self, numbers: Any, decimals: int):
        self.numbers, self.decimals = numbers if np is None else np.asarray(numbers), decimals

    def __len__(self) -> int:
        return len(self.numbers)

    def __getitem__(self, at: slice) -> "Scaled":
        return Scaled(self.numbers[at], self.decimals)

    def floats(self) -> Any:
        """The nearest floats."""
        return unscaled_many(self.numbers, self.decimals) if self.decimals else self.numbers

    def to(self, code: str, decimals: int, what: str) -> Any:
        """The integers for another number of decimal places. Raises an error if one isn't exact or doesn't fit."""
        if decimals >= self.decimals:
            return multiplied(code, self.numbers, 10 ** (decimals - self.decimals), what)
        divisor = 10 ** (self.decimals - decimals)
        if np is None:
            found = [divmod(it, divisor) for it in self.numbers]
            rests = [rest for _, rest in found]
            place = next((at for at, rest in enumerate(rests) if rest), None)
            quotients = [it for it, _ in found]
        else:
            quotients, rests = np.divmod(self.numbers, self.numbers.dtype.type(divisor))
            place = int(np.argmax(rests != 0)) if rests.any() else None
        if place is not None:
            item = unscaled_one(int(self.numbers[place]), self.decimals)
            raise ValueError(f"item {place} of the {what}, {item}, has more than {places_text(decimals)}")
        return ints(code, quotients, what)


def multiplied(code: str, given: Any, factor: int, what: str) -> Any:
    """A new array of these integers times a factor. Raises OverflowError if a product doesn't fit."""
    found = ints(code, given, what) if code == "Q" or not is_unsigned(given) else ints("Q", given, what)
    if factor == 1 and not is_unsigned(found) ^ (code == "Q"):
        return found
    least, greatest, _ = LIMITS[code]
    if len(found) and not least <= int(min_of(found)) * factor <= int(max_of(found)) * factor <= greatest:
        place = next(at for at, it in enumerate(plain(found)) if not least <= it * factor <= greatest)
        raise too_large(code, found[place], what, place)
    if np is None:
        return from_ints(code, (it * factor for it in found), what)
    dtype = np.uint64 if code == "Q" else np.int64
    return found.astype(dtype) * dtype(factor)


def is_unsigned(given: Any) -> bool:
    """Whether this is an array of unsigned integers."""
    return is_array(given) and given.dtype.kind == "u" or getattr(given, "typecode", "") == "Q"


def min_of(given: Any) -> Any:
    """The least item of an array."""
    return given.min() if is_array(given) else min(given)


def max_of(given: Any) -> Any:
    """The greatest item of an array."""
    return given.max() if is_array(given) else max(given)


def too_large(code: str, number: Any, what: str, place: Optional[int] = None) -> OverflowError:
    """The error for a number that doesn't fit into 64 bits."""
    which = named(what if place is None else f"item {place} of the {what},", number)
    return OverflowError(f"{which} doesn't fit into {LIMITS[code][2]} integer of 64 bits")


def scaled_one(code: str, number: Any, decimals: int, what: str) -> int:
    """A number times 10**`decimals`, as an integer. `what` names the number in errors.

    Raises TypeError for what is no number, ValueError for a number that isn't such a decimal, and OverflowError for one
    that doesn't fit into 64 bits. A float may be one part in 10**9 away from the decimal. NaN raises ValueError.
    """
    found = scaled(number, decimals, what)
    least, greatest, _ = LIMITS[code]
    if found is None or not least <= found <= greatest:
        raise too_large(code, number, what)
    return found


def scaled(number: Any, decimals: int, what: str) -> Optional[int]:
    """Does what `scaled_one` does for any size of a number. None stands for a number that is far too large."""
    if isinstance(number, decimal.Decimal):
        return scaled_decimal(number, decimals, what)
    if isinstance(number, NO_NUMBERS) or not isinstance(number, numbers.Real):
        raise TypeError(f"{what} must be a number, not of type {type(number).__name__}")
    if isinstance(number, numbers.Integral):
        return int(number) * 10**decimals
    if number != number:
        raise ValueError(f"NaN can't be {what}")
    if isinstance(number, numbers.Rational):
        exact = fractions.Fraction(number) * 10**decimals
        if exact.denominator == 1:
            return exact.numerator
    else:
        if abs(number) == float("inf"):
            return None
        found = near(number, decimals)
        if found is not None:
            return found
    raise no_decimal(number, decimals, what)


def no_decimal(number: Any, decimals: int, what: str) -> ValueError:
    """The error for a number that has more decimal places."""
    return ValueError(f"{named(what, number)} isn't a decimal with {places_text(decimals)}")


def named(what: str, number: Any) -> str:
    """A number with the words before it: "the key 0.125", or "item 3 of the keys, 0.125,"."""
    return f"{what} {shown(number)}{',' if what.endswith(',') else ''}"


def scaled_decimal(number: decimal.Decimal, decimals: int, what: str) -> Optional[int]:
    """Does what `scaled` does for a `Decimal`, which must be exact."""
    if number.is_nan():
        raise ValueError(f"NaN can't be {what}")
    if not number:
        return 0
    if not number.is_finite() or number.adjusted() > MOST_DIGITS:
        return None
    found = number.quantize(decimal.Decimal((0, (1,), -decimals)), context=WIDE)
    if found != number:
        raise no_decimal(number, decimals, what)
    return int(found.scaleb(decimals, WIDE))


def near(number: Any, decimals: int) -> Optional[int]:
    """The decimal that a finite float stands for, times 10**`decimals`, or None if there is none."""
    numerator, denominator = map(int, number.as_integer_ratio())
    numerator *= 10**decimals
    found, rest = divmod(numerator, denominator)
    # half to even
    if 2 * rest > denominator or 2 * rest == denominator and found % 2:
        found += 1
    return found if abs(numerator - found * denominator) * PARTS <= abs(found) * denominator else None


def scaled_many(code: str, given: Any, decimals: int, what: str) -> Any:
    """The numbers of a list or an array times 10**`decimals`, as a new array of integers."""
    if isinstance(given, Scaled):
        return given.to(code, decimals, what)
    found = items_of(given, what)
    if isinstance(found, Given):
        raise TypeError(f"{what} must be numbers, not dates")
    if np is not None and not is_array(found) and types_of(found) == {float}:
        found = np.array(found, np.float64)
    if is_array(found):
        if found.dtype.kind == "f" and found.dtype.itemsize <= 8:
            return rounded(code, found.astype(np.float64), decimals, what)
        if found.dtype.kind in "ui" or not found.size:
            return multiplied(code, found, 10**decimals, what)
        found = list(found)
    elif types_of(found) == {int}:
        return multiplied(code, from_ints_of(found, code, what), 10**decimals, what)
    return from_ints(code, scaled_each(code, found, decimals, what), what)


def from_ints_of(given: Any, code: str, what: str) -> Any:
    """An array of a list of integers, signed if one of them is negative."""
    return ints("q" if code == "q" or min(given, default=0) < 0 else "Q", given, what)


def scaled_each(code: str, given: Iterable[Any], decimals: int, what: str) -> Iterable[int]:
    """Yields the numbers of a list times 10**`decimals`."""
    for place, it in enumerate(given):
        yield scaled_one(code, it, decimals, f"item {place} of the {what},")


def rounded(code: str, floats: Any, decimals: int, what: str) -> Any:
    """An array of floats times 10**`decimals`, rounded half to even. Raises an error if one isn't near enough."""
    result = np.empty(len(floats), np.uint64 if code == "Q" else np.int64)
    for at in range(0, len(floats), FLOATS_AT_ONCE):
        block, is_sure = surely_rounded(floats[at : at + FLOATS_AT_ONCE], decimals)
        if code == "Q":
            is_sure &= block >= 0
        result[at : at + FLOATS_AT_ONCE] = block.view(result.dtype)
        for place in (at + np.flatnonzero(~is_sure)).tolist():
            result[place] = scaled_one(code, float(floats[place]), decimals, f"item {place} of the {what},")
    return result


def surely_rounded(floats: Any, decimals: int) -> tuple[Any, Any]:
    """Floats times 10**`decimals`, rounded, and where that is surely the nearest integer and near enough."""
    with np.errstate(over="ignore", invalid="ignore"):
        product = floats * float(10**decimals)
        found = np.rint(product)
        away = np.abs(product - found)
        limit = np.abs(found) / PARTS
        # the product is rounded too; what this might change is computed exactly
        rest = np.abs(found) * 2.0**-52
        is_sure = (away + rest < limit) & (away + rest < 0.5) & (np.abs(found) < EXACT)
    return np.where(is_sure, found, 0).astype(np.int64), is_sure | (floats == 0)


def decimals_of(given: Any, decimals: int, what: str) -> Any:
    """Floats and decimals with this many places as `Scaled`. Returns integers and other items as they are."""
    if isinstance(given, Scaled):
        return given
    items = items_of(given, what)
    return Scaled(scaled_many("q", items, decimals, what), decimals) if is_scalable(items) else items


def is_scalable(given: Any) -> bool:
    """Whether these are floats or decimals, which integers with decimal places can stand for: an array or a list."""
    if isinstance(given, Given):
        return False
    if is_array(given):
        return bool(given.dtype.kind == "f")
    kinds = types_of(given)
    is_number = all(issubclass(it, (numbers.Real, decimal.Decimal)) and it not in NO_NUMBERS for it in kinds)
    return is_number and any(not issubclass(it, numbers.Integral) for it in kinds)


def found_decimals(given: Any) -> Optional[int]:
    """The most decimal places that occur in an array or a list of floats or decimals, or None if that are over 9."""
    if is_array(given):
        return places_of_floats(given.astype(np.float64)) if given.dtype.itemsize <= 8 else None
    if np is not None and types_of(given) == {float}:
        return places_of_floats(np.array(given, np.float64))
    most = 0
    for it in given:
        places = places_of_one(it)
        if places is None:
            return None
        most = max(most, places)
    return most


def places_of_floats(floats: Any) -> Optional[int]:
    """The most decimal places that occur in an array of floats, or None if one isn't very near to such a decimal."""
    most = 0
    # a block of floats stays in the processor's cache
    for at in range(0, len(floats), FLOATS_AT_ONCE):
        rest = floats[at : at + FLOATS_AT_ONCE]
        if not np.isfinite(rest).all():
            return None
        # most blocks have no more places than those before
        rest = rest[~are_near(rest, most)]
        for decimals in range(MOST_DECIMALS + 1) if len(rest) else ():
            rest, most = rest[~are_near(rest, decimals)], max(most, decimals)
            if not len(rest):
                break
        if len(rest):
            return None
    return most


def are_near(floats: Any, decimals: int) -> Any:
    """Whether each float is so near to a decimal with these places that it surely stands for it."""
    with np.errstate(over="ignore", invalid="ignore"):
        product = floats * float(10**decimals)
        found = np.rint(product)
        size = np.abs(found)
        return (np.abs(product - found) <= size * NEAR) & (size <= MOST_FOUND)


def places_of_one(number: Any) -> Optional[int]:
    """The decimal places of a number, or None if that are over 9 or it has none."""
    if isinstance(number, numbers.Integral):
        return 0
    if isinstance(number, decimal.Decimal):
        return places_of_decimal(number)
    for decimals in range(MOST_DECIMALS + 1):
        try:
            found = scaled(number, decimals, "")
        except ValueError:
            continue
        is_float = isinstance(number, numbers.Real) and not isinstance(number, numbers.Rational)
        if found is None or is_float and abs(found) > MOST_FOUND:
            return None
        if not is_float or abs(fractions.Fraction(number) * 10**decimals - found) <= abs(found) * NEAR:
            return decimals
    return None


def places_of_decimal(number: decimal.Decimal) -> Optional[int]:
    """The decimal places of a `Decimal`. Zeros at its end count if there are at most 9 places."""
    if not number.is_finite():
        return None
    _, digits, exponent = number.as_tuple()
    places = -int(exponent)
    while places > MOST_DECIMALS and digits[-1] == 0 and any(digits):
        digits, places = digits[:-1], places - 1
    return None if places > MOST_DECIMALS and number else min(max(places, 0), MOST_DECIMALS)


def end_of(end: Any, decimals: int) -> Any:
    """The end of a range of decimals, as a number that compares exactly. A float near to a decimal stands for it."""
    if isinstance(end, decimal.Decimal):
        if end.is_nan():
            raise ValueError("NaN can't be the end of a range")
        return end
    if isinstance(end, NO_NUMBERS) or not isinstance(end, numbers.Real):
        raise TypeError(f"the end of a range of decimals can't be of type {type(end).__name__}")
    if end != end:
        raise ValueError("NaN can't be the end of a range")
    if isinstance(end, numbers.Integral):
        return int(end)
    if isinstance(end, numbers.Rational):
        return fractions.Fraction(int(end.numerator), int(end.denominator))
    if abs(end) == float("inf"):
        return float(end)
    found = near(end, decimals)
    exact = map(int, end.as_integer_ratio())
    return fractions.Fraction(*exact) if found is None else fractions.Fraction(found, 10**decimals)


def ceiling_of(end: Any, decimals: int) -> int:
    """The least integer that stands for a decimal at or above an end, or one that is below or above all integers."""
    if isinstance(end, (int, fractions.Fraction)):
        return math.ceil(end * 10**decimals)
    found = decimal.Decimal(end)
    if found and (not found.is_finite() or found.adjusted() > MOST_DIGITS):
        return 2 * TOP if found > 0 else -2 * TOP
    unit = decimal.Decimal((0, (1,), -decimals))
    return int(found.quantize(unit, decimal.ROUND_CEILING, WIDE).scaleb(decimals, WIDE))


def keys_with_decimals(keys: Any) -> Any:
    """Keys that are floats or decimals as `Scaled`, with the places that occur. Keys of other types stay as they are.

    Floats stay as they are if they have no such places, or are all whole.
    """
    if isinstance(keys, Scaled) or not is_scalable(keys):
        return keys
    places = found_decimals(keys)
    return keys if places is None or not places and is_floats(keys) else decimals_of(keys, places, "keys")


def is_floats(given: Any) -> bool:
    """Whether these are floats, and no decimals: an array or a list."""
    return is_array(given) or not any(issubclass(it, decimal.Decimal) for it in types_of(given))


def payloads_with_decimals(payloads: Any) -> Any:
    """Payloads that are floats or decimals as `Scaled`, with the places that occur. Others stay as they are.

    Raises ValueError if one has more than 9 places.
    """
    if isinstance(payloads, Scaled) or not is_scalable(payloads):
        return payloads
    places = found_decimals(payloads)
    if places is None:
        at, item = next((at, it) for at, it in enumerate(payloads) if found_decimals([it]) is None)
        raise ValueError(
            f"item {at} of the payloads, {shown(item)}, has more than {places_text(MOST_DECIMALS)}; "
            "payload_decimals says to how many it may be rounded"
        )
    return decimals_of(payloads, places, "payloads")


def unscaled_one(number: int, decimals: int) -> Any:
    """The exact decimal that an integer stands for; without decimal places the integer itself."""
    return decimal.Decimal(number).scaleb(-decimals, WIDE) if decimals else number


def unscaled_many(found: Any, decimals: int) -> Any:
    """The floats nearest to the decimals that integers stand for; without decimal places the integers themselves."""
    if not decimals:
        return found
    factor = 10**decimals
    if np is None:
        return array.array("d", [it / factor for it in found])
    result = found / np.float64(factor)
    # Python divides integers exactly and rounds once
    bound = np.array(1 << 53, found.dtype)
    for place in np.flatnonzero((found > bound) | (found < -bound if found.dtype.kind == "i" else False)).tolist():
        result[place] = int(found[place]) / factor
    return result


def mean_of(total: int, count: int, decimals: int) -> decimal.Decimal:
    """The mean of decimals whose sum is `total`, exactly, or to 40 digits if it isn't a finite decimal."""
    exact = fractions.Fraction(total, count * 10**decimals)
    rest, twos, fives = exact.denominator, 0, 0
    while rest % 2 == 0:
        rest, twos = rest // 2, twos + 1
    while rest % 5 == 0:
        rest, fives = rest // 5, fives + 1
    if rest == 1:
        places = max(twos, fives, decimals)
        return decimal.Decimal(exact.numerator * 10**places // exact.denominator).scaleb(-places, WIDE)
    context = decimal.Context(prec=DIGITS_OF_A_MEAN)
    return context.divide(decimal.Decimal(exact.numerator), decimal.Decimal(exact.denominator))


class PayloadType:
    """A type of payloads: signed integers of 64 bits, which stand for decimals with `decimals` places."""

    def __init__(self, decimals: Optional[int] = None):
        self.decimals = 0 if decimals is None else checked_decimals(decimals, "payload_decimals")

    def __eq__(self, other: Any) -> bool:
        return isinstance(other, PayloadType) and self.decimals == other.decimals

    def __hash__(self) -> int:
        return hash(self.decimals)

    def __repr__(self) -> str:
        return f"PayloadType({self.decimals})"

    def one(self, payload: Any) -> int:
        """The integer of a payload."""
        if self.decimals:
            return scaled_one("q", payload, self.decimals, "the payload")
        number = payload if type(payload) is int else whole(payload, "a payload")
        if not -SIGN <= number < SIGN:
            raise OverflowError(f"the payload {shown(payload)} doesn't fit into a signed integer of 64 bits")
        return number

    def many(self, payloads: Any) -> Any:
        """The integers of these payloads, as a new array."""
        if self.decimals or isinstance(payloads, Scaled):
            return scaled_many("q", payloads, self.decimals, "payloads")
        return ints("q", payloads, "payloads")

    def back(self, found: Any) -> Any:
        """The payloads of these integers, as an array of the nearest floats, or of the integers themselves."""
        return unscaled_many(found, self.decimals)

    def back_one(self, number: int) -> Any:
        """The payload, or the sum of payloads, of an integer."""
        return unscaled_one(number, self.decimals)

    def back_each(self, sums: list[int]) -> list[Any]:
        """The sums of payloads of these integers."""
        return [unscaled_one(it, self.decimals) for it in sums]

    def exact(self, found: Any) -> Any:
        """The payloads of these integers, in a form from which `many` gets the same integers."""
        return Scaled(found, self.decimals) if self.decimals else found

    def mean(self, total: int, count: int) -> Any:
        """The mean of `count` payloads whose integers have the sum `total`."""
        return mean_of(total, count, self.decimals) if self.decimals else fractions.Fraction(total, count)


INTEGERS = PayloadType()
