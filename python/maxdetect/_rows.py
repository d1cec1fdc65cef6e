"""Catalogues as plain arrays, while they are made: astropy's tables take longer for a few columns than some of the
columns themselves.
"""
from typing import TYPE_CHECKING, Any, Dict, Iterable, List, Mapping, Optional, Sequence, Union

import numpy

if TYPE_CHECKING:
    from astropy.table import Table

__all__ = ["Rows", "behind_each_other", "filled", "side_by_side"]


def _plain(values: Any) -> numpy.ndarray:
    """Values as an array, a masked one where they are masked."""
    return values if isinstance(values, numpy.ma.MaskedArray) else numpy.asarray(values)


class Rows:
    """Columns of one length by their names, and what is told of all of them. A name gives its column, a list of names
    some of the columns, and whatever else indexes an array some of the rows. `units` and `texts` have the unit and the
    description of those columns that have one.
    """

    def __init__(
        self,
        columns: Mapping[str, numpy.ndarray],
        meta: Optional[Dict[str, Any]] = None,
        units: Optional[Mapping[str, str]] = None,
        texts: Optional[Mapping[str, str]] = None,
    ):
        self._columns = {name: _plain(values) for name, values in columns.items()}
        self.meta, self.units, self.texts = dict(meta or {}), dict(units or {}), dict(texts or {})

    @classmethod
    def of(cls, table: "Table") -> "Rows":
        """The columns of astropy's table, those that are masked as masked arrays."""
        columns = {}
        for name in table.colnames:
            values = numpy.ma.asarray(table[name])
            columns[name] = values.data if values.mask is numpy.ma.nomask else values
        units = {name: str(table[name].unit) for name in table.colnames if table[name].unit is not None}
        texts = {name: table[name].description for name in table.colnames if table[name].description}
        return cls(columns, table.meta, units, texts)

    def _like(self, columns: Mapping[str, numpy.ndarray]) -> "Rows":
        """Columns of the same names, or some of them, of which the same is told."""
        units, texts = ({name: it for name, it in told.items() if name in columns} for told in (self.units, self.texts))
        return Rows(columns, self.meta, units, texts)

    @property
    def colnames(self) -> List[str]:
        return list(self._columns)

    def __len__(self) -> int:
        return len(next(iter(self._columns.values()), ()))

    def __getitem__(self, what):
        if isinstance(what, str):
            return self._columns[what]
        if isinstance(what, list) and all(isinstance(name, str) for name in what):
            return self._like({name: self._columns[name] for name in what})
        if isinstance(what, numpy.ndarray) and what.dtype == bool and what.shape == (len(self),):
            # Of many columns: numpy takes longer to go through a mask than through places.
            what = numpy.flatnonzero(what)
        return self._like({name: values[what] for name, values in self._columns.items()})

    def __setitem__(self, name: str, values: numpy.ndarray) -> None:
        self._columns[name] = _plain(values)

    def describe(self, name: str, unit: Optional[str], text: str) -> None:
        """Gives a column a unit, or none, and a description."""
        self.units.pop(name, None)
        self.texts[name] = text
        if unit is not None:
            self.units[name] = unit

    def items(self) -> Iterable:
        """The columns with their names."""
        return self._columns.items()

    def copy(self) -> "Rows":
        """The same in arrays of its own."""
        return self._like({name: values.copy() for name, values in self.items()})

    def table(self) -> "Table":
        """The same as astropy's table."""
        from astropy import units
        from astropy.table import Table

        table = Table(self._columns, meta=self.meta, copy=False)
        for name, unit in self.units.items():
            table[name].unit = units.Unit(unit, parse_strict="silent")
        for name, text in self.texts.items():
            table[name].description = text
        return table


def behind_each_other(parts: Sequence[Union[Rows, "Table"]]) -> Rows:
    """The rows of catalogues with the same columns, one behind the other; what is told is the first one's."""
    first = parts[0]
    if len(parts) == 1 and isinstance(first, Rows):
        return first
    names = first.colnames
    return Rows({name: numpy.concatenate([numpy.asarray(it[name]) for it in parts]) for name in names}, first.meta)


def side_by_side(parts: Sequence[Rows]) -> Rows:
    """Catalogues of the same rows, one beside the other; what is told is the first one's."""
    return Rows({name: values for part in parts for name, values in part.items()}, parts[0].meta)


def filled(column: numpy.ndarray) -> numpy.ndarray:
    """A column's values; those that aren't there, as where one of several images has no WCS, are NaN, 0 or empty."""
    values = numpy.ma.asarray(column)
    if values.mask is numpy.ma.nomask:
        return values.data
    return values.filled(numpy.nan if values.dtype.kind == "f" else "" if values.dtype.kind in "US" else 0)
