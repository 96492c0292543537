"""The tags of a stream."""
from typing import Dict, Iterator, List, Mapping, Optional


class Tags(Mapping[str, str]):
    """The tags of a stream: by each name, in upper case, the first of its values.

    A name is looked up whatever its case is. The others of its values are in `get_all`. Names stand
    in the order of the stream. Tags are equal to a dict of the first values, and to tags that have
    all the same values.
    """

    def __init__(self, values: Dict[str, List[str]]) -> None:
        self._values = values

    def __getitem__(self, name: str) -> str:
        values = self._found(name)
        if values is None:
            raise KeyError(name)
        return values[0]

    def __contains__(self, name: object) -> bool:
        return self._found(name) is not None

    def _found(self, name: object) -> Optional[List[str]]:
        """The values of a name. Only ASCII has a case here: others aren't names."""
        is_name = isinstance(name, str) and name.isascii()
        return self._values.get(str(name).upper()) if is_name else None

    def __iter__(self) -> Iterator[str]:
        return iter(self._values)

    def __len__(self) -> int:
        return len(self._values)

    def get_all(self, name: str) -> List[str]:
        """All values of a name, in the order of the stream; none where it isn't there."""
        return list(self._found(name) or ())

    def __eq__(self, other: object) -> bool:
        if isinstance(other, Tags):
            return self._values == other._values
        return super().__eq__(other)

    def __repr__(self) -> str:
        return f"Tags({self._values!r})"
