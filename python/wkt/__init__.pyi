from typing import (
    Any, Callable, Dict, Iterator, List, Literal, NamedTuple, Optional, Protocol, Sequence, Tuple, TypeVar, Union, overload,
)  # fmt: skip

__version__: str
KINDS: Tuple[str, ...]
DIMENSIONS: Tuple[str, ...]

_Text = Union[str, bytes, bytearray, memoryview]
_Invalid = Literal["raise", "null", "keep"]
_NoKeep = Literal["raise", "null"]
_Progress = Union[None, bool, Callable[[int], Any]]

class _Readable(Protocol):
    def read(self, size: int, /) -> bytes: ...

class _Writable(Protocol):
    def write(self, data: Union[bytes, memoryview], /) -> Any: ...

class _LendsArray(Protocol):  # Arrow's C data interface
    def __arrow_c_array__(self, requested_schema: Any = None) -> Tuple[Any, Any]: ...

class _LendsStream(Protocol):  # its C stream interface
    def __arrow_c_stream__(self, requested_schema: Any = None) -> Any: ...

_LendsArrow = Union[_LendsArray, _LendsStream]

class _Array(Protocol):  # arrays of NumPy, Series of pandas
    @property
    def dtype(self) -> Any: ...
    def tolist(self) -> Any: ...

_A = TypeVar("_A", bound=_Array)
_Rows = Union[List[Any], Tuple[Any, ...]]
_Lists = Union[_Rows, _LendsArrow]
_Column = Union[_Rows, _Array, _LendsArrow]

class Explanation(NamedTuple):
    text: Union[str, bytes]
    status: int
    message: str
    start: int
    stop: int
    expected: str
    hint: str = ""
    code: str = ""
    @property
    def cause(self) -> str: ...
    @property
    def line(self) -> int: ...
    @property
    def column(self) -> int: ...

class Front(NamedTuple):
    canonical: str
    end: int

class WktError(ValueError):
    status: int
    message: str
    row: Optional[int]
    explanation: Optional[Explanation]
    def __init__(
        self, status: int, message: str, row: Optional[int] = None, explanation: Optional[Explanation] = None
    ) -> None: ...

class Arrays(NamedTuple):
    kind: str
    dimension: str
    numbers: Any
    rings: Any
    polygons: Any
    places: Optional[int] = None

class GeoArrow(NamedTuple):
    extension: str
    dimension: str
    coordinates: Any
    offsets: Tuple[Any, ...]
    valid: Any
    def __arrow_c_schema__(self) -> Any: ...
    def __arrow_c_array__(self, requested_schema: Any = None) -> Tuple[Any, Any]: ...

class ColumnArrays(NamedTuple):
    kinds: Any
    dimensions: Any
    numbers: Any
    number_offsets: Any
    rings: Any
    ring_offsets: Any
    polygons: Any
    polygon_offsets: Any
    statuses: Any
    places: Optional[int] = None
    def row(self, i: int) -> Arrays: ...
    def geoarrow(self, places: Optional[int] = None) -> GeoArrow: ...

class Events(NamedTuple):
    events: List[Union[None, int, Tuple[str, str]]]
    numbers: List[int]
    places: int

class ArrowTexts(Sequence[Optional[str]]):
    def __init__(
        self, data: Any, offsets: Any, statuses: Any, metadata: Optional[Dict[str, str]] = None, indices: Any = None
    ) -> None: ...
    @property
    def data(self) -> Any: ...
    @property
    def offsets(self) -> Any: ...
    @property
    def statuses(self) -> Any: ...
    @property
    def indices(self) -> Any: ...
    @property
    def metadata(self) -> Dict[str, str]: ...
    def __len__(self) -> int: ...
    @overload
    def __getitem__(self, index: int) -> Optional[str]: ...
    @overload
    def __getitem__(self, index: slice) -> Sequence[Optional[str]]: ...
    def to_pylist(self) -> List[Optional[str]]: ...
    def __arrow_c_schema__(self) -> Any: ...
    def __arrow_c_array__(self, requested_schema: Any = None) -> Tuple[Any, Any]: ...
    def __arrow_c_stream__(self, requested_schema: Any = None) -> Any: ...

class Batches(Iterator[ArrowTexts]):
    def __iter__(self) -> Batches: ...
    def __next__(self) -> ArrowTexts: ...
    def __arrow_c_schema__(self) -> Any: ...
    def __arrow_c_stream__(self, requested_schema: Any = None) -> Any: ...

@overload
def canonical(
    text: _Text, places: int = 18, invalid: Literal["raise"] = "raise", progress: _Progress = None, whole: bool = True, dialect: str = ""
) -> str: ...
@overload
def canonical(text: _Text, places: int = 18, invalid: _Invalid = "raise", progress: _Progress = None, whole: bool = True, dialect: str = "") -> Any: ...
@overload
def canonical(
    text: List[Any], places: int = 18, invalid: _Invalid = "raise", progress: _Progress = None, whole: bool = True, dialect: str = ""
) -> List[Optional[str]]: ...
@overload
def canonical(
    text: Tuple[Any, ...], places: int = 18, invalid: _Invalid = "raise", progress: _Progress = None, whole: bool = True, dialect: str = ""
) -> List[Optional[str]]: ...
@overload
def canonical(text: _LendsArrow, places: int = 18, invalid: _Invalid = "raise", progress: _Progress = None, whole: bool = True, dialect: str = "") -> ArrowTexts: ...
@overload
def canonical(text: _A, places: int = 18, invalid: _Invalid = "raise", progress: _Progress = None, whole: bool = True, dialect: str = "") -> _A: ...
def front(text: _Text, places: int = 18, dialect: str = "") -> Front: ...
def batches(
    column: _LendsArrow, places: int = 18, invalid: _Invalid = "raise", progress: _Progress = None, whole: bool = True, dialect: str = ""
) -> Batches: ...
def canonical_column(
    texts: _Column, places: int = 18, progress: _Progress = None, whole: bool = True, dialect: str = ""
) -> Tuple[List[Optional[str]], List[int]]: ...
@overload
def same(
    one: _Text, other: _Text, places: int = 18, invalid: Literal["raise"] = "raise", progress: _Progress = None, whole: bool = True, dialect: str = ""
) -> bool: ...
@overload
def same(
    one: _Text, other: _Text, places: int = 18, invalid: _NoKeep = "raise", progress: _Progress = None, whole: bool = True, dialect: str = ""
) -> Optional[bool]: ...
@overload
def same(
    one: _Text, other: _Lists, places: int = 18, invalid: _NoKeep = "raise", progress: _Progress = None, whole: bool = True, dialect: str = ""
) -> List[Optional[bool]]: ...
@overload
def same(
    one: _Lists,
    other: Union[None, _Text, _Lists],
    places: int = 18,
    invalid: _NoKeep = "raise",
    progress: _Progress = None,
    whole: bool = True, dialect: str = "",
) -> List[Optional[bool]]: ...
@overload
def same(
    one: Union[_Text, _Column],
    other: Union[None, _Text, _Column],
    places: int = 18,
    invalid: _NoKeep = "raise",
    progress: _Progress = None,
    whole: bool = True, dialect: str = "",
) -> Any: ...
@overload
def infer(text: _Text, invalid: Literal["raise"] = "raise") -> Tuple[str, str]: ...
@overload
def infer(text: _Text, invalid: _NoKeep = "raise") -> Optional[Tuple[str, str]]: ...
@overload
def infer(text: _Lists, invalid: _NoKeep = "raise") -> List[Optional[Tuple[str, str]]]: ...
@overload
def infer(text: _Column, invalid: _NoKeep = "raise") -> Any: ...
@overload
def srid(text: _Text) -> Optional[int]: ...
@overload
def srid(text: _Lists) -> List[Optional[int]]: ...
@overload
def srid(text: _Column) -> Any: ...
@overload
def reads(text: _Text, places: int = 18, progress: _Progress = None, whole: bool = True, dialect: str = "") -> bool: ...
@overload
def reads(text: _Rows, places: int = 18, progress: _Progress = None, whole: bool = True, dialect: str = "") -> List[bool]: ...
@overload
def reads(text: Union[_LendsArrow, _Array], places: int = 18, progress: _Progress = None, whole: bool = True, dialect: str = "") -> Any: ...
@overload
def explain(text: _Text, places: int = 18, progress: _Progress = None, whole: bool = True, dialect: str = "") -> Optional[Explanation]: ...
@overload
def explain(text: _Lists, places: int = 18, progress: _Progress = None, whole: bool = True, dialect: str = "") -> List[Optional[Explanation]]: ...
@overload
def explain(text: _Column, places: int = 18, progress: _Progress = None, whole: bool = True, dialect: str = "") -> Any: ...
@overload
def lines(data: _Text, places: int = 18) -> bytes: ...
@overload
def lines(data: _Lists, places: int = 18) -> List[Optional[str]]: ...
@overload
def lines(data: _Column, places: int = 18) -> Any: ...
def stream(source: _Readable, sink: _Writable, places: int = 18, progress: _Progress = None) -> int: ...
@overload
def to_arrays(
    text: _Text, places: int = 6, invalid: Literal["raise"] = "raise", progress: _Progress = None, whole: bool = True, dialect: str = ""
) -> Arrays: ...
@overload
def to_arrays(
    text: _Text, places: int = 6, invalid: _NoKeep = "raise", progress: _Progress = None, whole: bool = True, dialect: str = ""
) -> Optional[Arrays]: ...
@overload
def to_arrays(
    text: _Column, places: int = 6, invalid: _NoKeep = "raise", progress: _Progress = None, whole: bool = True, dialect: str = ""
) -> List[Optional[Arrays]]: ...
def to_arrays_column(texts: _Column, places: int = 6, progress: _Progress = None, whole: bool = True, dialect: str = "") -> ColumnArrays: ...
@overload
def read_events(
    text: _Text, places: int = 18, invalid: Literal["raise"] = "raise", progress: _Progress = None, whole: bool = True, dialect: str = ""
) -> Events: ...
@overload
def read_events(
    text: _Text, places: int = 18, invalid: _NoKeep = "raise", progress: _Progress = None, whole: bool = True, dialect: str = ""
) -> Optional[Events]: ...
@overload
def read_events(
    text: _Column, places: int = 18, invalid: _NoKeep = "raise", progress: _Progress = None, whole: bool = True, dialect: str = ""
) -> List[Optional[Events]]: ...
@overload
def from_arrays(arrays: Tuple[Any, ...], places: Optional[int] = None) -> str: ...
@overload
def from_arrays(arrays: List[Any], places: Optional[int] = None) -> List[Optional[str]]: ...
def from_arrays_column(arrays: ColumnArrays, places: Optional[int] = None) -> Tuple[List[Optional[str]], List[int]]: ...
@overload
def keys(geometries: _LendsArrow, places: int = 18, invalid: _NoKeep = "raise") -> ArrowTexts: ...
@overload
def keys(geometries: _Rows, places: int = 18, invalid: _NoKeep = "raise") -> List[Optional[str]]: ...
@overload
def keys(geometries: Any, places: int = 18, invalid: _NoKeep = "raise") -> Any: ...
def geometries(arrays: ColumnArrays) -> Any: ...
