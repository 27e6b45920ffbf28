"""The schemas in docs/, by the library jsonschema; a test that needs one is skipped where the library is missing."""

from __future__ import annotations

import json
import unittest
from collections import defaultdict
from collections.abc import Iterator, Mapping
from pathlib import Path
from typing import Any

try:
    from jsonschema import Draft202012Validator, validators
except ImportError:
    MISSING = "jsonschema is not installed: Debian's python3-jsonschema, or pip install jsonschema"
else:
    MISSING = ""

Schema = Mapping[str, Any]

DIALECT = "https://json-schema.org/draft/2020-12/schema"
DOCS = Path(__file__).resolve().parents[2] / "docs"


class Validator:
    """A schema. Members that no `properties` names are allowed, as in the standard; `undescribed` finds them."""

    def __init__(self, schema: Schema) -> None:
        # The library would take a schema that names its dialect, as `$ref: "#"` finds it, from a validator of its own.
        self._schema = {name: given for name, given in schema.items() if name != "$schema"}
        #: The members that a schema names of an object, by the identity of the object.
        self._named: defaultdict[int, set[str]] = defaultdict(set)

    @classmethod
    def of(cls, name: str) -> Validator:
        """The schema in a file of docs/."""
        return cls(json.loads((DOCS / name).read_text(encoding="utf-8")))

    def faults(self, value: Any) -> list[str]:
        """What is wrong with a value, each with where it is."""
        if MISSING:
            raise unittest.SkipTest(MISSING)
        self._named.clear()
        found = _noting(self._named)(self._schema).iter_errors(value)
        return ["".join(f"/{step}" for step in fault.absolute_path) + f": {fault.message}" for fault in found]

    def undescribed(self, value: Any) -> list[str]:
        """The members of a value that the schema does not name."""
        self.faults(value)
        return list(self._unnamed(value, ""))

    def _unnamed(self, value: Any, at: str) -> Iterator[str]:
        inside = value.items() if isinstance(value, dict) else enumerate(value) if isinstance(value, list) else ()
        for step, one in inside:
            if isinstance(value, dict) and step not in self._named[id(value)]:
                yield f"{at}/{step}"
            yield from self._unnamed(one, f"{at}/{step}")


def _noting(named: defaultdict[int, set[str]]) -> Any:
    """The validator of the library, which also notes the members that schemas name."""

    def keyword(name: str) -> Any:
        checked = Draft202012Validator.VALIDATORS[name]

        def noted(validator: Any, given: Any, instance: Any, schema: Any) -> Iterator[Any]:
            if isinstance(instance, dict):
                named[id(instance)].update(given if name == "properties" else instance)
            yield from checked(validator, given, instance, schema) or ()

        return noted

    return validators.extend(Draft202012Validator, {name: keyword(name) for name in ("properties", "additionalProperties")})
