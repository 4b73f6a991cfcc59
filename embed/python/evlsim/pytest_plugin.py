"""For pytest: fixtures that make kernels and machines and show their traces and pictures where a test fails, and
scenarios as tests.

    def test_put(evlsim_kernel):
        kernel = evlsim_kernel(threads=2, sems=[0])
        kernel.put(0, sem=0)
        assert kernel.see_count(0) == 1

A kernel of evlsim_kernel is strict: a call that it refuses fails the test, unless it is made with strict=False.

With `evlsim_scenarios = true` in pytest's configuration each NAME.toml that has a NAME.trace beside it is a test: it
passes if the scenario has just this trace."""

import difflib
import sys
from pathlib import Path
from typing import Any, Callable, Generator, Iterator, List, Optional, Tuple, Union

import pytest

from . import Kernel, KernelClosed, Machine, Refused, check, draw, play, version

Made = Union[Kernel, Machine]
_MADE = pytest.StashKey[List[List[Made]]]() if hasattr(pytest, "StashKey") else None


def _is_refused(raised: Any) -> bool:
    return raised is not None and isinstance(raised.value, (Refused, KernelClosed))


# What is refused is shown where the test called, and not where the module raised it: pytest leaves such modules out.
for _name in [it for it in sys.modules if it.startswith(f"{__package__}.")]:
    setattr(sys.modules[_name], "__tracebackhide__", _is_refused)


def pytest_addoption(parser: pytest.Parser) -> None:
    parser.addini("evlsim_scenarios", "collect scenarios that have a trace beside them", type="bool", default=False)


def pytest_report_header(config: pytest.Config) -> str:
    return f"evlsim: {version()}"


def _making(request: pytest.FixtureRequest, kind: Callable[..., Any], **usual: Any) -> Iterator[Callable[..., Any]]:
    """Makes things of a kind for a test, as is usual, notes them for its report, and closes them at its end."""
    made: List[Made] = []
    if _MADE is not None:
        request.node.stash.setdefault(_MADE, []).append(made)

    def make(*threads: int, **board: Any) -> Any:
        made.append(kind(*threads, **{**usual, **board}))
        return made[-1]

    yield make
    for it in made:
        it.close()


@pytest.fixture
def evlsim_kernel(request: pytest.FixtureRequest) -> Iterator[Callable[..., Kernel]]:
    """Makes kernels, as evlsim.Kernel does, but strict: a refused call raises CallRefused, unless strict=False is given. A
    failing test's report has their histories as texts of lines, which from_lines and `lab play` play again, and pictures."""
    yield from _making(request, Kernel, strict=True)


@pytest.fixture
def evlsim_machine(request: pytest.FixtureRequest) -> Iterator[Callable[..., Machine]]:
    """Makes machines, as evlsim.Machine does. A failing test's report has their traces and pictures."""
    yield from _making(request, Machine)


@pytest.hookimpl(hookwrapper=True)  # type: ignore[misc]
def pytest_runtest_makereport(item: pytest.Item, call: Any) -> Generator[None, Any, None]:
    outcome = yield
    report = outcome.get_result()
    if report.when != "call" or not report.failed or _MADE is None:
        return
    for made in item.stash.get(_MADE, []):
        for number, it in enumerate(made):
            if not it.closed:
                name = f"evlsim {'kernel' if isinstance(it, Kernel) else 'machine'} {number}"
                report.sections += [(f"{name}: {what}", text) for what, text in _parts(it)]


def _parts(made: Made) -> Iterator[Tuple[str, str]]:
    """What a report has of a kernel or a machine."""
    try:
        yield "trace", made.lines() if isinstance(made, Kernel) else made.trace()
    except (Refused, MemoryError):  # another caller has the core, or there is no memory
        return


class ScenarioFile(pytest.File):
    """A scenario that has a trace beside it."""

    def collect(self) -> Iterator[pytest.Item]:
        yield ScenarioItem.from_parent(self, name=self.path.stem)


class ScenarioItem(pytest.Item):
    """Plays the scenario and compares its trace with the stored one."""

    def runtest(self) -> None:
        told = play(self.path.read_bytes())
        wanted = self.path.with_suffix(".trace").read_text(encoding="utf-8")
        if told != wanted:
            parts = (wanted.splitlines(), told.splitlines())
            lines = difflib.unified_diff(*parts, "the stored trace", "played", n=2, lineterm="")
            raise AnotherTrace("\n".join(lines))

    def repr_failure(self, excinfo: Any, style: Optional[Any] = None) -> Any:
        if isinstance(excinfo.value, AnotherTrace):
            return f"another trace:\n{excinfo.value}"
        if isinstance(excinfo.value, Refused):
            told = "\n".join(f"{self.path.name}:{it}" for it in check(self.path.read_bytes()) if not it.is_warning)
            return told or str(excinfo.value)
        return super().repr_failure(excinfo, style)

    def reportinfo(self) -> Any:
        return self.path, 0, f"scenario {self.name}"


class AnotherTrace(Exception):
    """A scenario has another trace than the stored one."""


def pytest_collect_file(file_path: Path, parent: pytest.Collector) -> Optional[ScenarioFile]:
    if file_path.suffix != ".toml" or not parent.config.getini("evlsim_scenarios"):
        return None
    if not file_path.with_suffix(".trace").exists():
        return None
    found: ScenarioFile = ScenarioFile.from_parent(parent, path=file_path)
    return found
