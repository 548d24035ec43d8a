"""Figures of matplotlib that a notebook shows."""

from __future__ import annotations

import base64
import contextlib
import functools
from typing import Any, Callable, Iterator

from bsptools.outputs.report import Report
from bsptools.plot.profile import Profile, Reading
from bsptools.plot.superstep_costs import Prices, of_report
from bsptools.refusals import Refused

from ._tools import BspError


@contextlib.contextmanager
def drawn_as_by_bspplot() -> Iterator[Any]:
    """A block in which matplotlib draws as bspplot has it, whatever the settings of this process are; what it refuses is an exception."""
    try:
        import matplotlib
    except ImportError as error:
        raise BspError("matplotlib is missing: apt-get install python3-matplotlib, or pip install matplotlib") from error
    import bsptools.plot

    try:
        with matplotlib.rc_context(fname=f"{bsptools.plot.__path__[0]}/matplotlibrc"):
            yield matplotlib
    except Refused as refused:
        raise BspError("\n".join(refused.args)) from refused


def shown(make: Callable[[], Any]) -> Any:
    """The figure of a picture of bspplot. A notebook shows it, with the texts of its marks under the pointer."""
    with drawn_as_by_bspplot():
        made = make()

    def svg() -> str:
        with drawn_as_by_bspplot():
            text = str(made.svg())
        # nbconvert takes no declaration of XML in a page.
        return text[text.index("<svg") :]

    def image() -> str:
        # Of SVG by itself nbconvert leaves the texts alone in a page, and takes all else away.
        return f'<img alt="a picture of bspemu" src="data:image/svg+xml;base64,{base64.b64encode(svg().encode()).decode()}">'

    # pylint: disable=protected-access
    made.figure._repr_svg_, made.figure._repr_html_ = svg, image
    return made.figure


def timeline(profile: Profile, prices: Prices, title: str) -> Any:
    """The run in time."""

    def make() -> Any:
        from bsptools.plot import timeline as picture

        return picture.draw(profile.supersteps, prices, Reading.OTHERS, title)

    return shown(make)


def matrix(profile: Profile, title: str) -> Any:
    """The bytes from rank to rank."""

    def make() -> Any:
        from bsptools.plot import byte_matrix

        return byte_matrix.draw(profile.supersteps, Reading.OTHERS, title)

    return shown(make)


def costs(report: Report, prices: Prices, title: str) -> Any:
    """What each superstep costs."""

    def make() -> Any:
        from bsptools.plot import cost_split

        return cost_split.draw(of_report(report), prices, title)

    return shown(make)


def of_sweep(draw: Callable[..., Any], *given: Any) -> Any:
    """A picture of a sweep."""
    return shown(functools.partial(draw, *given))
