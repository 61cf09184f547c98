"""The encoder of `mlxtend.preprocessing`: lists of items become a table of true and false, and back.

`basket_miner`'s own calls take lists as they are. This is for notebooks that have the table already, so that the import
is the only change.
"""

from collections.abc import Hashable, Iterable, Sequence
from importlib import import_module
from typing import Any

import numpy as np

from ._baskets import Array
from ._errors import DataError
from ._lists import each
from ._numbering import in_order, is_missing


class TransactionEncoder:
    """Encodes transactions, which are lists of items, as rows of true and false.

    `columns_` are the items of the transactions that `fit` saw, in ascending order, and
    `columns_mapping_` the place of each. The order is that of texts where items can't be compared.
    """

    columns_: list[Any]
    columns_mapping_: dict[Any, int]

    def fit(self, X: Iterable[Iterable[Hashable]]) -> "TransactionEncoder":
        """Learns the items of transactions, and returns itself."""
        try:
            found = {item for transaction in each(X) for item in transaction}
        except TypeError as fault:
            raise DataError(f"an item has a hash: {fault}") from fault
        if any(map(is_missing, found)):
            raise DataError("a transaction has a missing item")
        self.columns_ = in_order(found)
        self.columns_mapping_ = {item: at for at, item in enumerate(self.columns_)}
        return self

    def transform(self, X: Iterable[Iterable[Hashable]], sparse: bool = False) -> Any:
        """The table of transactions: an array of `bool`, or with `sparse` a `scipy.sparse.csr_matrix`.

        Raises `DataError` where an item is new.
        """
        places, ends = self._places(X)
        columns = len(self.columns_)
        if sparse:
            matrix = import_module("scipy.sparse").csr_matrix
            ones = np.ones(len(places), dtype=bool)
            return matrix((ones, places, ends), shape=(len(ends) - 1, columns))
        table = np.zeros((len(ends) - 1, columns), dtype=bool)
        table[np.repeat(np.arange(len(ends) - 1), np.diff(ends)), places] = True
        return table

    def fit_transform(
        self, X: Iterable[Iterable[Hashable]], sparse: bool = False
    ) -> Any:
        """`fit`, and then `transform` of the same transactions."""
        transactions = [[*transaction] for transaction in each(X)]
        return self.fit(transactions).transform(transactions, sparse)

    def inverse_transform(self, array: Any) -> list[list[Any]]:
        """The transactions of a table, each by its columns."""
        try:
            is_sparse = hasattr(array, "tocsr")
            rows = array.tocsr().toarray() if is_sparse else np.asarray(array)
        except ValueError as fault:
            raise DataError(f"the rows of a table are of one length: {fault}") from None
        if rows.ndim != 2 or rows.shape[1] != len(self._fitted()):
            raise DataError(
                f"a table has a column for each of {len(self.columns_)} items"
            )
        return [[self.columns_[at] for at in np.flatnonzero(row)] for row in rows]

    def get_feature_names_out(self, input_features: object = None) -> Array:
        """The items, as scikit-learn's transformers name their columns."""
        return np.array(self._fitted(), dtype=object)

    def get_params(self, deep: bool = True) -> dict[str, Any]:
        """The parameters of an encoder, of which there is none, so that scikit-learn copies it by `clone`."""
        return {}

    def set_params(self, **params: Any) -> "TransactionEncoder":
        """Takes no parameter, and returns itself."""
        if params:
            raise DataError(f"the encoder has no parameter, as {[*params][0]!r}")
        return self

    def _fitted(self) -> Sequence[Any]:
        if not hasattr(self, "columns_"):
            raise DataError("the encoder knows no items yet: call fit first")
        return self.columns_

    def _places(self, X: Iterable[Iterable[Hashable]]) -> tuple[Array, Array]:
        """The places of the items of all transactions, and where each transaction begins and ends."""
        self._fitted()
        places: list[int] = []
        ends = [0]
        for transaction in each(X):
            try:
                known = {self.columns_mapping_[item] for item in transaction}
            except KeyError as fault:
                raise DataError(f"fit saw no item {fault.args[0]!r}") from fault
            except TypeError as fault:
                raise DataError(f"an item has a hash: {fault}") from fault
            places += sorted(known)
            ends.append(len(places))
        return np.array(places, dtype=np.intp), np.array(ends, dtype=np.intp)
