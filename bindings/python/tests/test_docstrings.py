"""Each docstring says what is taken, given and refused, and has an example, which runs as a doctest."""

import inspect
import re

import pytest

import gomzelat as gz
from gomzelat import campaign

SECTION = re.compile(r"^( *)(\w+)\n\1-+$", re.MULTILINE)
CALLS = [it for it in map(gz.__dict__.get, gz.__all__) if inspect.isfunction(it)]
KINDS = [it for it in map(gz.__dict__.get, gz.__all__) if inspect.isclass(it) and it is not gz.Answer]
METHODS = [gz.Harq.add, gz.Harq.decode, gz.Harq.code_blocks, gz.Plan.size]
# What of the standard a call isn't about.
NOT_OF_IT = {gz.noisy, gz.trial_payload, gz.quantise, gz.pack, gz.unpack, gz.origin, gz.sizes}


def sections(told) -> dict[str, str]:
    parts = SECTION.split(inspect.getdoc(told) or "")
    return dict(zip(parts[2::3], parts[3::3]))


def named(section: str) -> set[str]:
    """The names that a section of parameters or attributes tells of."""
    lines = [line for line in section.splitlines() if line and not line.startswith(" ")]
    return {it for line in lines for it in re.split(r", *", line.split(":")[0].strip())}


@pytest.mark.parametrize("call", CALLS + METHODS, ids=lambda it: it.__qualname__)
def test_of_a_call(call):
    parts = sections(call)
    taken = set(inspect.signature(call).parameters) - {"self"}
    assert ">>>" in parts["Examples"] and named(parts.get("Parameters", "")) == taken
    assert "Returns" in parts or call is gz.Harq.add
    assert "Raises" in parts or call in (gz.origin, gz.Harq.code_blocks, gz.Plan.size)
    assert re.match(r"Returns? |Add |Decode ", inspect.getdoc(call))


@pytest.mark.parametrize("kind", KINDS, ids=lambda it: it.__name__)
def test_of_a_kind(kind):
    parts = sections(kind)
    assert ">>>" in parts["Examples"]
    fields = set(getattr(kind, "__dataclass_fields__", {}))
    assert fields <= named(parts.get("Attributes", ""))


def test_each_call_of_the_standard_has_its_clause():
    for call in set(CALLS) - NOT_OF_IT:
        assert re.search(r"\(.*36\.21[12] \d|36\.212 5\.1", inspect.getdoc(call)), call


def test_of_campaigns():
    for name in campaign.__all__:
        told = getattr(campaign, name)
        assert name in ("DEFAULT", "RECORD") or inspect.getdoc(told)
