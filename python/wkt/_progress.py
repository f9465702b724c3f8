"""How far a call over a column is."""
import importlib
from typing import Any, Callable, Optional, Union

Progress = Union[None, bool, Callable[[int], Any]]


class shown:
    """Says how many rows are done: by a callback, or by tqdm where there are more than a million, or nobody knows."""

    def __init__(self, progress: Progress, total: Optional[int], unit: str = " rows", above: int = 1_000_000) -> None:
        self.bar: Any = None
        self.report = progress if callable(progress) else None
        if progress not in (None, False, True) and self.report is None:
            raise TypeError("progress is a function or a bool, and not %s" % type(progress).__name__)
        if progress is True:
            tqdm: Any = importlib.import_module("tqdm")
            if total is None or total > above:
                self.bar = tqdm.tqdm(total=total, unit=unit, unit_scale=True)

    def __enter__(self) -> Optional[Callable[[int], None]]:
        """A function to call, or None where nobody looks."""

        def counted(done: int) -> None:
            if self.bar is not None:
                self.bar.update(done - self.bar.n)
            if self.report is not None:
                self.report(done)

        return None if self.bar is None and self.report is None else counted

    def __exit__(self, *error: Any) -> None:
        if self.bar is not None:
            self.bar.close()
