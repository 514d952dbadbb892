"""How the values of a column are handed over, as whole numbers or texts, and how they come back."""

from __future__ import annotations

import datetime
import decimal
import re
from collections.abc import Callable, Collection, Hashable, Mapping
from dataclasses import dataclass, field
from typing import TYPE_CHECKING, Any, ClassVar, Union

import numpy as np
import pandas as pd

from .errors import DataError

if TYPE_CHECKING:
    Array = np.ndarray[Any, Any]
else:
    Array = np.ndarray  # which can't be subscripted before numpy 1.22
UNITS = {"seconds": 1_000_000_000, "millis": 1_000_000, "micros": 1_000, "nanos": 1}
_NANOS = {"s": 1_000_000_000, "ms": 1_000_000, "us": 1_000, "ns": 1}
_LEAST, _GREATEST = -(2**63), 2**63 - 1
_MOST_PLACES = 18  # with more of them nothing but 0 has 64 bits
_DECIMAL = re.compile(r"decimal\(([0-9]{1,2})\)")
_EPOCH = datetime.date(1970, 1, 1)
_NUMBERS = (int, float, decimal.Decimal, np.integer, np.floating, np.bool_)
_WHOLE = (int, np.integer, np.bool_)
_WIDEST = 60  # characters of a value in a message
_FINITE = ".replace([numpy.inf, -numpy.inf], numpy.nan) makes nulls of them"
_KEYS = ".map(str, na_action='ignore') makes texts of them, for keys"
# Enough digits for all numbers of 64 bits. What it would round is refused.
_WIDE = decimal.Context(
    prec=60, Emax=decimal.MAX_EMAX, Emin=decimal.MIN_EMIN, traps=[decimal.Inexact]
)
# What objects are that pandas makes a column of, and how.
_AS_OBJECTS = {
    "datetime": "times as objects: pandas.to_datetime makes a column of times of them",
    "datetime64": "times as objects: pandas.to_datetime makes a column of times of them",
    "timedelta": "times as objects: pandas.to_timedelta makes a column of times of them",
    "floating": "floats as objects: .astype('float64') makes a column of numbers of them",
}
_OF_ZONES = (
    "times as objects, in several zones: pandas.to_datetime(.., utc=True) makes a column of times "
    "of them"
)
# What makes something else of values that can't be handed over.
_MAKE = {
    "bytes": ": .str.decode('utf-8') makes texts of them",
    "period": ": .dt.to_timestamp() makes times of a column of periods",
    "time": ": pandas.to_timedelta of .map(str, na_action='ignore') makes lengths of them",
}
# How objects are handed over of which nothing is said, by what pandas finds among them.
_OBJECTS = {"string": "text", "empty": "text", "integer": "int", "boolean": "bool", "date": "date"}


@dataclass(frozen=True)
class Numbers:
    """Cells of whole numbers: int64, and which of them are null."""

    values: Array
    missing: Array


@dataclass(frozen=True)
class Words:
    """Cells of texts: for each its place among the words, -1 where it is null."""

    codes: Array
    words: list[str]


Cells = Union[Numbers, Words]


@dataclass(frozen=True)
class Way:
    """The way of one column, by its label and dtype. ``cells`` hands values over and refuses with a
    `DataError` what it can't; ``back`` takes values that come from the program (object texts, or
    Int64), which may be null where those of the column aren't."""

    label: Hashable
    dtype: Any
    kind: ClassVar[str] = "int"

    def cells(self, values: pd.Series) -> Cells:
        raise NotImplementedError

    def back(self, answer: pd.Series) -> pd.Series:
        raise NotImplementedError

    def fault(self, has: Any, why: str, row: int | None = None) -> DataError:
        return DataError(f"column {self.label!r} has {has}, {why}", self.label, row)


class Whole(Way):
    """Whole numbers of 64 bits, bools among them as 0 and 1, and floats that are whole."""

    def cells(self, values: pd.Series) -> Numbers:
        if values.dtype == object:
            missing = values.isna().to_numpy()
            whole = [
                0 if gone else self._whole(value, row)
                for row, (value, gone) in enumerate(zip(values, missing))
            ]
            return Numbers(np.array(whole, dtype="int64"), missing)
        if values.dtype.kind not in "iubf":
            raise self.fault(f"the dtype {values.dtype}", "and no whole numbers")
        numbers, missing = _numbers_of(values)
        if numbers.dtype.kind in "uf":
            far = np.flatnonzero((numbers >= 2**63) | (numbers < -(2**63)))
            if len(far):
                raise self._beyond(numbers[far[0]].item(), int(far[0]))
        whole_numbers = numbers.astype("int64")
        if numbers.dtype.kind == "f" and (whole_numbers != numbers).any():
            row = int(np.flatnonzero(whole_numbers != numbers)[0])
            raise self.fault(numbers[row], "which is no whole number", row)
        return Numbers(whole_numbers, missing)

    def _whole(self, value: Any, row: int) -> int:
        if not isinstance(value, (int, np.integer, np.bool_)):
            raise self.fault(repr(value), "which is no whole number", row)
        if not _LEAST <= int(value) <= _GREATEST:
            raise self._beyond(int(value), row)
        return int(value)

    def _beyond(self, number: float, row: int) -> DataError:
        """The error of a number that has no 64 bits with a sign."""
        if _is_endless(number):
            return _no_number(self.label, number, row)
        write = f": {_KEYS}" if isinstance(number, int) else ""
        return self.fault(number, f"which is beyond the signed 64 bits{write}", row)

    def back(self, answer: pd.Series) -> pd.Series:
        if self.dtype == object:
            return _each(answer, int)
        if not isinstance(self.dtype, np.dtype):
            return answer.astype(self.dtype)
        if self.dtype.kind == "b":
            return answer.astype("boolean")
        if self.dtype.kind == "f":
            numbers = answer.to_numpy(self.dtype, na_value=np.nan)
            return pd.Series(numbers, index=answer.index)
        sign = {"i": "Int", "u": "UInt"}[self.dtype.kind]
        return answer.astype(f"{sign}{8 * self.dtype.itemsize}")


class Flags(Whole):
    """Bools among objects, as 0 and 1."""

    def back(self, answer: pd.Series) -> pd.Series:
        return _each(answer, bool)


@dataclass(frozen=True)
class Places(Way):
    """Decimals of so many places, as whole numbers of the last one.

    A float counts as the decimal that it is written as: 0.29 as 0.29. Each decimal of as many
    digits as the dtype carries (15 of float64) has a float of its own, so none is mistaken for
    another. Objects come back as what the column has: the first one of those that are equal."""

    places: int
    objects: dict[int, Any] = field(default_factory=dict, compare=False, repr=False)

    def cells(self, values: pd.Series) -> Numbers:
        if values.dtype == object:
            return self._cells_of_objects(values)
        if values.dtype.kind in "iub":
            return self._times(Whole(self.label, self.dtype).cells(values))
        if values.dtype.kind != "f":
            raise self.fault(f"the dtype {values.dtype}", "and no numbers")
        numbers, missing = _numbers_of(values)
        scaled, fits = _of_places(numbers, self.places)
        if not fits.all():
            row = int(np.flatnonzero(~fits)[0])
            if np.isinf(numbers[row]):
                raise _no_number(self.label, numbers[row], row)
            if _is_too_long(numbers[row], self.places):
                raise _too_long(self.label, numbers[row], self.places, row)
            raise self._no_decimal(repr(numbers[row].item()), row, self._help(numbers))
        return Numbers(scaled.astype("int64"), missing)

    def _help(self, numbers: Array) -> str:
        """What to write for floats of which some are no decimals of these places."""
        places = _places_that_fit(numbers)
        if places is not None:
            return _taken_by(places)
        rounds = _of_places(np.round(numbers, self.places), self.places)[1].all()
        return f": round them first, .round({self.places})" if rounds else ""

    def _cells_of_objects(self, values: pd.Series) -> Numbers:
        missing = values.isna().to_numpy()
        whole = np.zeros(len(values), dtype="int64")
        for row, value in enumerate(values):
            if not missing[row]:
                number = self._scaled(value)
                if number is None:
                    raise self._no_decimal_of(value, row, values)
                whole[row] = number
                self.objects.setdefault(number, value)
        return Numbers(whole, missing)

    def _no_decimal_of(self, value: Any, row: int, values: pd.Series) -> DataError:
        if _is_endless(value):
            return _no_number(self.label, value, row)
        if isinstance(value, str):
            write = ": pandas.to_numeric makes numbers of a column of texts"
            return self._no_decimal(_shown(value), row, write)
        return self._no_decimal(value, row, self._help_of_objects(values))

    def _help_of_objects(self, values: pd.Series) -> str:
        places = _places_of_objects(values)
        if places is None or places <= self.places:
            return ""
        if places > _MOST_PLACES:
            return f": round them first, {_rounding(self.places)}"
        return _taken_by(places)

    def _times(self, whole: Numbers) -> Numbers:
        most = _GREATEST // 10**self.places
        far = np.flatnonzero((whole.values > most) | (whole.values < -most))
        if len(far):
            raise self._no_decimal(whole.values[far[0]], int(far[0]))
        return Numbers(whole.values * 10**self.places, whole.missing)

    def _scaled(self, value: Any) -> int | None:
        """The whole number that an object is in units of the last place, where it is one."""
        number = _decimal_of(value)
        if not number:
            return None if number is None else 0
        # One beyond these has more digits than 64 bits or is less than a unit, and may have an
        # exponent of which no whole number can be made.
        if not 0 <= number.adjusted() + self.places <= _MOST_PLACES:
            return None
        try:
            scaled = number.scaleb(self.places, _WIDE)
        except decimal.Inexact:
            return None
        whole = int(scaled)
        return whole if whole == scaled and _LEAST <= whole <= _GREATEST else None

    def _no_decimal(self, has: Any, row: int, write: str = "") -> DataError:
        why = f"which is no decimal of {self.places} places and 64 bits{write}"
        return self.fault(has, why, row)

    def back(self, answer: pd.Series) -> pd.Series:
        if self.dtype == object:
            return _each(answer, self.objects.__getitem__)
        if self.dtype.kind in "iub":
            return Whole(self.label, self.dtype).back(answer // 10**self.places)
        floats = answer.to_numpy("float64", na_value=np.nan) / 10.0**self.places
        return pd.Series(floats, index=answer.index).astype(self.dtype)


@dataclass(frozen=True)
class Moments(Way):
    """Times as whole numbers of a unit since 1970 (in UTC where there is a zone), and lengths. Of
    objects it takes nulls alone. ``is_said`` is whether ``columns=`` gave the unit."""

    unit: str
    is_said: bool = False

    def cells(self, values: pd.Series) -> Numbers:
        if values.dtype == object and values.isna().all():
            return Numbers(np.zeros(len(values), dtype="int64"), np.ones(len(values), dtype=bool))
        if values.dtype.kind not in "mM":
            raise self.fault(
                f"the dtype {values.dtype}", "and no times: pandas.to_datetime makes them"
            )
        missing = values.isna().to_numpy()
        zone = getattr(values.dtype, "tz", None)
        moments = (values.dt.tz_convert("UTC").dt.tz_localize(None) if zone else values).to_numpy()
        numbers = np.where(missing, 0, moments.view("int64"))
        ticks, step = _NANOS[np.datetime_data(moments.dtype)[0]], UNITS[self.unit]
        if ticks >= step:
            far = np.flatnonzero(np.abs(numbers) > _GREATEST // (ticks // step))
            if len(far):
                why = f"which is too far from 1970 for {self.unit}"
                raise self.fault(values.iloc[far[0]], why, int(far[0]))
            return Numbers(numbers * (ticks // step), missing)
        cut = np.flatnonzero(numbers % (step // ticks))
        if len(cut):
            fits = (unit for unit in UNITS if not (numbers % max(1, UNITS[unit] // ticks)).any())
            raise self._too_fine(values.iloc[cut[0]], int(cut[0]), next(fits))
        return Numbers(numbers // (step // ticks), missing)

    def _too_fine(self, moment: Any, row: int, finer: str) -> DataError:
        """The error of a time that is no whole number, by the unit of which all of them are."""
        write = f"columns={{{self.label!r}: {finer!r}}}"
        if not self.is_said:
            write = f"times={finer!r}, or {write}"
        why = f"which is no whole number of {self.unit}: {write}; the clause counts in {finer} then"
        return self.fault(moment, why, row)

    def back(self, answer: pd.Series) -> pd.Series:
        if self.dtype == object:
            return answer.astype(object).mask(answer.isna(), None)
        of_numpy = isinstance(self.dtype, np.dtype)
        unit = np.datetime_data(self.dtype)[0] if of_numpy else self.dtype.unit
        ticks, step = _NANOS[unit], UNITS[self.unit]
        numbers = answer.to_numpy("int64", na_value=0)
        numbers = numbers // (ticks // step) if ticks >= step else numbers * (step // ticks)
        none = answer.isna().to_numpy()
        times = np.where(none, np.iinfo("int64").min, numbers).view(f"{self.dtype.kind}8[{unit}]")
        series = pd.Series(times, index=answer.index)
        zone = getattr(self.dtype, "tz", None)
        return series.dt.tz_localize("UTC").dt.tz_convert(zone) if zone else series


class Days(Way):
    """Dates as days since 1970."""

    def cells(self, values: pd.Series) -> Numbers:
        missing = values.isna().to_numpy()
        days = np.zeros(len(values), dtype="int64")
        for row, value in enumerate(values):
            if not missing[row]:
                if type(value) is not datetime.date:
                    why = f"which is no datetime.date{_dates(value)}"
                    raise self.fault(_shown(value), why, row)
                days[row] = (value - _EPOCH).days
        return Numbers(days, missing)

    def back(self, answer: pd.Series) -> pd.Series:
        return _each(answer, lambda days: _EPOCH + datetime.timedelta(days=days))


def _dates(value: Any) -> str:
    """What makes dates of values as this one."""
    if not isinstance(value, datetime.datetime):
        return ""
    return ": pandas.to_datetime(..).dt.date makes dates of times"


class Texts(Way):
    """Texts, as they are."""

    kind: ClassVar[str] = "text"

    def cells(self, values: pd.Series) -> Words:
        # Not by pandas.factorize, which takes a text up to its first NUL for the whole of it.
        missing = values.isna().to_numpy()
        places: dict[str, int] = {}
        try:
            each = [
                -1 if gone else places.setdefault(text, len(places))
                for text, gone in zip(values, missing)
            ]
        except TypeError:
            raise self.fault("values that are no texts", "and can't be compared") from None
        codes = np.array(each, dtype="int64")
        for text, code in places.items():
            if not isinstance(text, str):
                raise self._fault(f"{text!r} among its texts", "which is no text", codes, code)
            try:
                text.encode()
            except UnicodeEncodeError:
                why = "in which half of a surrogate pair is no character"
                raise self._fault(repr(text), why, codes, code) from None
        return Words(codes, list(places))

    def _fault(self, has: str, why: str, codes: Array, code: int) -> DataError:
        return self.fault(has, why, int(np.flatnonzero(codes == code)[0]))

    def back(self, answer: pd.Series) -> pd.Series:
        return answer.astype(self.dtype)


@dataclass(frozen=True)
class Categories(Way):
    """The values of a category column, by the way of those categories that a row has."""

    of: Way

    @property
    def kind(self) -> str:  # type: ignore[override]
        return self.of.kind

    def cells(self, values: pd.Series) -> Cells:
        codes, used = values.cat.codes.to_numpy(), _used(values)
        missing = codes < 0
        try:
            cells = self.of.cells(pd.Series(values.cat.categories.take(used)))
        except DataError as error:
            raise _of_row(error, codes, used) from None
        at = np.searchsorted(used, codes)
        if isinstance(cells, Words):
            return Words(np.where(missing, -1, np.append(cells.codes, -1)[at]), cells.words)
        missing |= np.append(cells.missing, True)[at]
        return Numbers(np.where(missing, 0, np.append(cells.values, 0)[at]), missing)

    def back(self, answer: pd.Series) -> pd.Series:
        return self.of.back(answer).astype(self.dtype)


def _of_row(error: DataError, codes: Array, used: Array) -> DataError:
    """The error of a category as that of the first row that has it. With na_action, .map isn't for
    columns of categories."""
    row = None if error.row is None else int(np.flatnonzero(codes == used[error.row])[0])
    message = str(error).replace(": .map(", ": .astype(object).map(")
    return DataError(message, error.column, row)


def _each(answer: pd.Series, back: Callable[[int], Any]) -> pd.Series:
    """The way back of objects, one by one."""
    values = [None if value is pd.NA else back(int(value)) for value in answer]
    return pd.Series(values, index=answer.index, dtype=object)


def _numpy_of(dtype: Any) -> np.dtype[Any]:
    """The dtype of numpy that a dtype of numbers is, or that one with nulls has its values in."""
    return np.dtype(getattr(dtype, "numpy_dtype", dtype))


def _numbers_of(values: pd.Series) -> tuple[Array, Array]:
    """The values of a dtype of numbers, 0 where they are null, and which are: NaN is, too, which
    Float64 may have apart from its nulls."""
    missing = values.isna().to_numpy()
    numbers = values.to_numpy(_numpy_of(values.dtype), na_value=0)
    if numbers.dtype.kind == "f":
        missing = missing | np.isnan(numbers)
        numbers = np.where(missing, numbers.dtype.type(0), numbers)
    return numbers, missing


def _of_places(numbers: Array, places: int) -> tuple[Array, Array]:
    """Floats as whole numbers of the last one of so many places, and which of them are such."""
    with np.errstate(over="ignore", invalid="ignore"):
        scaled = np.rint(numbers.astype("float64") * 10.0**places)
        same = (scaled / 10.0**places).astype(numbers.dtype) == numbers
        return scaled, same & (np.abs(scaled) < 10.0 ** np.finfo(numbers.dtype).precision)


def places_needed(values: pd.Series) -> int | None:
    """The places of a column of which nothing is said and that has to be read by some, as far as
    they are known: of one with fractions, of decimals among objects, and of floats without a value.
    """
    if values.dtype == object:
        are_others = pd.api.types.infer_dtype(values.dropna()) in _OBJECTS
        return None if are_others else _places_of_objects(values)
    if values.dtype.kind != "f" or isinstance(values.dtype, pd.SparseDtype):
        return None
    numbers, missing = _numbers_of(values)
    if not missing.all() and bool((numbers == np.floor(numbers)).all()):
        return None
    return _places_that_fit(numbers) or 0


def _places_that_fit(numbers: Array) -> int | None:
    """The places of which all floats are decimals: two where that is enough, as cents are."""
    tried: list[int] = [*range(2, _MOST_PLACES + 1), 1]
    return next((places for places in tried if _of_places(numbers, places)[1].all()), None)


def look_at_ways(ways: Mapping[Hashable, str], labels: Collection[Hashable], times: str) -> None:
    """Refuses ``columns=`` and ``times=`` that say nothing that there is."""
    if times not in UNITS:
        raise ValueError(f"times={times!r} is none of {', '.join(UNITS)}")
    if not isinstance(ways, Mapping):
        raise TypeError(f"columns={ways!r} is no mapping, as {{'price': 'decimal(2)'}} is one")
    for label, said in ways.items():
        if label not in labels:
            alike = [other for other in labels if str(other).lower() == str(label).lower()]
            write = f": write {alike[0]!r}" if alike else ""
            message = f"columns= names {label!r}, and the data have no such column{write}"
            raise DataError(message, label)
        if said not in ("int", "text", "date", *UNITS) and places_in(str(said)) is None:
            there_is = f"there is int, text, decimal(PLACES), date, {', '.join(UNITS)}"
            raise DataError(f"columns={{{label!r}: {said!r}}}: {there_is}", label)


def kind_of(dtype: Any, values: Callable[[], pd.Series], said: str | None) -> str:
    """The kind of a column's way, int or text, by its dtype and its first value that isn't null; of
    categories by the first that a row has, or by the first of all where none has any."""
    if said is not None:
        return "text" if said == "text" else "int"
    if isinstance(dtype, pd.CategoricalDtype):
        categories = dtype.categories
        if categories.dtype == object and pd.api.types.infer_dtype(categories).startswith("mixed"):
            used = _used(values())
            categories = categories.take(used) if len(used) else categories
        return kind_of(categories.dtype, lambda: pd.Series(categories), None)
    if isinstance(dtype, pd.StringDtype):
        return "text"
    if dtype != object:
        return "int"
    first = first_known(values())
    return "text" if first is None or isinstance(first, str) else "int"


def first_known(values: pd.Series) -> Any:
    """The first value that isn't null; None where there is none."""
    for size in (100, len(values)):
        known = values.iloc[:size].dropna()
        if len(known):
            return known.iloc[0]
    return None


def way_of(label: Hashable, values: pd.Series, said: str | None, times: str) -> Way:
    """The way of a column: what is said of it, or else what its dtype and its values are."""
    dtype: Any = values.dtype
    if isinstance(dtype, pd.CategoricalDtype):
        used = _used(values)
        if said is None and len(used) == 0 and dtype.categories.dtype == object:
            said = kind_of(dtype, lambda: values, None)
        try:
            of = way_of(label, pd.Series(dtype.categories.take(used)), said, times)
        except DataError as error:
            raise _of_row(error, values.cat.codes.to_numpy(), used) from None
        return Categories(label, dtype, of)
    if isinstance(dtype, pd.SparseDtype):
        message = (
            f"column {label!r} is sparse: .sparse.to_dense() makes one that can be handed over"
        )
        raise DataError(message, label)
    if said is None and dtype.kind in "mM":
        return Moments(label, dtype, times)
    if said is None:
        said = _said_by_values(label, values)
    places = places_in(said)
    if places is not None:
        return Places(label, dtype, places)
    if said in UNITS:
        return Moments(label, dtype, said, is_said=True)
    return {"int": Whole, "bool": Flags, "text": Texts, "date": Days}[said](label, dtype)


def _used(values: pd.Series) -> Array:
    """The numbers of those categories that a row has, ascending."""
    codes = values.cat.codes.to_numpy()
    used: Array = np.unique(codes[codes >= 0])
    return used


def places_in(said: str) -> int | None:
    """The places of ``decimal(PLACES)``."""
    found = _DECIMAL.fullmatch(said)
    return int(found[1]) if found and int(found[1]) <= _MOST_PLACES else None


def _said_by_values(label: Hashable, values: pd.Series) -> str:
    """How a column is handed over of which nothing is said: int, bool, text or date."""
    dtype: Any = values.dtype
    if dtype.kind in "iub":
        return "int"
    if isinstance(dtype, pd.StringDtype):
        return "text"
    if dtype.kind == "f":
        _look_at_fractions(label, values)
        return "int"
    kind = pd.api.types.infer_dtype(values, skipna=True)
    if dtype == object and kind not in _OBJECTS:  # NaT isn't skipped
        kind = pd.api.types.infer_dtype(values.dropna())
    if dtype == object and kind in _OBJECTS:
        return _OBJECTS[kind]
    raise _unfit(label, values, kind)


def _look_at_fractions(label: Hashable, values: pd.Series) -> None:
    numbers, _ = _numbers_of(values)
    fractions = np.flatnonzero(numbers != np.floor(numbers))
    if not len(fractions):
        return
    endless = np.flatnonzero(np.isinf(numbers))
    if len(endless):
        raise _no_number(label, numbers[endless[0]], int(endless[0]))
    has = repr(numbers[fractions[0]].item())
    places = _places_that_fit(numbers)
    fits = _of_places(np.round(numbers, 2), 2)[1]
    rounded = places is None and bool(fits.all())
    far = np.flatnonzero(~fits)
    if places is None and len(far) and _is_too_long(numbers[far[0]], 2):
        raise _too_long(label, numbers[far[0]], 2, int(far[0]))
    write = _say_places(label, 2 if places is None else places, ".round(2)" if rounded else "")
    raise DataError(f"column {label!r} has fractions, as {has}: {write}", label, int(fractions[0]))


def _is_too_long(number: Any, places: int) -> bool:
    """Whether a float has 64 bits as a decimal of so many places, and more digits than floats have
    that are told apart for sure."""
    scaled = abs(float(number)) * 10.0**places
    return 10.0 ** np.finfo(number.dtype).precision <= scaled < 2.0**63


def _too_long(label: Hashable, number: Any, places: int, row: int) -> DataError:
    """The error of a float that is too long, and what carries all of its digits."""
    digits = np.finfo(number.dtype).precision
    why = f"which has more digits, with {places} places, than the {digits} that a float carries"
    if number.dtype.itemsize < 8:
        make = f".astype('float64').round({places}) carries 15"
    else:
        make = ".map(lambda it: decimal.Decimal(repr(it)), na_action='ignore') carries them all"
    write = f"{make}; say columns={{{label!r}: 'decimal({places})'}} then"
    return DataError(f"column {label!r} has {number.item()!r}, {why}: {write}", label, row)


def _is_endless(value: Any) -> bool:
    if isinstance(value, decimal.Decimal):
        return value.is_infinite()
    return isinstance(value, (float, np.floating)) and bool(np.isinf(value))


def _no_number(label: Hashable, has: Any, row: int) -> DataError:
    why = "which is no number that can be handed over"
    write = f": {_FINITE}" if _is_endless(has) else ""
    return DataError(f"column {label!r} has {has}, {why}{write}", label, row)


def _say_places(label: Hashable, places: int, rounding: str) -> str:
    """What to write for decimals of so many places, which have to be rounded to them or not."""
    write = f"columns={{{label!r}: 'decimal({places})'}}"
    first = f"round them, {rounding}, and " if rounding else ""
    return f"{first}say how many places count, {write}, and compare with whole numbers of that unit"


def _places_of_objects(values: pd.Series) -> int | None:
    """The most places of objects, where all of them are decimals or null."""
    most = 0
    for value in values.dropna():
        number = _decimal_of(value)
        if number is None:
            return None
        most = max(most, _places_of(number))
    return most


def _places_of(number: decimal.Decimal) -> int:
    """The places of a decimal, without zeros at its end."""
    _, digits, exponent = number.as_tuple()
    text = "".join(map(str, digits)).rstrip("0")
    zeros = len(digits) - len(text)
    return max(0, -int(exponent) - zeros) if text else 0


def _decimal_of(value: Any) -> decimal.Decimal | None:
    """An object that counts as a decimal; a float counts as the one that it is written as."""
    if isinstance(value, np.generic):
        value = value.item()
    if isinstance(value, float):
        value = decimal.Decimal(repr(value))
    if not isinstance(value, (int, decimal.Decimal)):
        return None
    number = decimal.Decimal(value)
    return number if number.is_finite() else None


def _unfit(label: Hashable, values: pd.Series, kind: str) -> DataError:
    """The error of a column of which no way is known: why, and what to do."""
    if kind in _AS_OBJECTS:
        zones = {str(getattr(value, "tzinfo", None)) for value in values.dropna()}
        has = _OF_ZONES if len(zones) > 1 else _AS_OBJECTS[kind]
        return DataError(f"column {label!r} has {has}", label)
    rows = np.flatnonzero(values.notna().to_numpy())
    known = list(values.iloc[rows])
    if not known:
        why = "which is neither of numbers, of texts nor of times"
        return DataError(f"column {label!r} has the dtype {values.dtype}, {why}", label)
    if all(isinstance(value, _NUMBERS) for value in known):
        return _unfit_numbers(label, values, rows)
    first = known[0]
    at = next((at for at, value in enumerate(known) if type(value) is not type(first)), None)
    if at is not None:
        has = f"values of several kinds, as {_shown(first)} and {_shown(known[at])}"
        make = ".map(str, na_action='ignore') makes texts of all"
        return DataError(f"column {label!r} has {has}: {make}", label, int(rows[at]))
    why = "which is neither a number, a text nor a time" + _MAKE.get(kind, f": {_KEYS}")
    return DataError(f"column {label!r} has {_shown(first)}, {why}", label, int(rows[0]))


def _unfit_numbers(label: Hashable, values: pd.Series, rows: Array) -> DataError:
    """The error of objects that are numbers, of which nothing is said."""
    for row in rows:
        if _decimal_of(values.iloc[row]) is None:
            return _no_number(label, values.iloc[row], int(row))
    places = _places_of_objects(values) or 0
    bools = [row for row in rows if isinstance(values.iloc[row], (bool, np.bool_))]
    if places == 0 and bools and all(isinstance(it, _WHOLE) for it in values.iloc[rows]):
        make = ".astype('Int64') makes whole numbers of all"
        has = f"bools among its whole numbers, as {values.iloc[bools[0]]}"
        return DataError(f"column {label!r} has {has}: {make}", label, int(bools[0]))
    if places == 1 and _are_of_places(label, values.iloc[rows], 2):
        places = 2  # as cents are, of which Decimal("1.10") has one with a zero at its end
    rounding = _rounding(2) if places > _MOST_PLACES else ""
    write = _say_places(label, 2 if rounding else places, rounding)
    return DataError(f"column {label!r} has decimals of up to {places} places: {write}", label)


def _are_of_places(label: Hashable, known: pd.Series, places: int) -> bool:
    """Whether objects are decimals of so many places and 64 bits."""
    way = Places(label, known.dtype, places)
    return all(way._scaled(value) is not None for value in known)


def _taken_by(places: int) -> str:
    """What to write where more places are enough."""
    return f": 'decimal({places})' takes them all; the clause counts in that unit then"


def _rounding(places: int) -> str:
    """What rounds objects."""
    return f".map(lambda it: round(it, {places}), na_action='ignore')"


def _shown(value: Any) -> str:
    """A value as a message has it, cut where it is long."""
    text = repr(value)
    return text if len(text) <= _WIDEST else f"{text[:_WIDEST]}.."
