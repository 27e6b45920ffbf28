"""The comments of a policy's file, each with the part of the policy that it belongs to.

A comment belongs to the table that follows it or contains it. Comments at the top that a blank line follows belong to
the whole policy.
"""

from __future__ import annotations

from dataclasses import dataclass, field

from . import outline, variables
from .numbered import Numbered


@dataclass
class Comments:
    """The comments on the whole policy, on its variables, and on its layers and rules: by the layer's number and the
    rule's name, which a layer does not have.
    """

    whole: list[str] = field(default_factory=list)
    on_variables: list[str] = field(default_factory=list)
    parts: dict[tuple[int, Numbered | None], list[str]] = field(default_factory=dict)

    def on_layer(self, layer: int) -> list[str]:
        """The comments on a layer itself."""
        return self.parts.get((layer, None), [])

    def on_rule(self, layer: int, rule: Numbered | None) -> list[str]:
        """The comments on a rule."""
        return self.parts.get((layer, rule), [])


def read(text: str) -> Comments:
    """The comments in the text of a policy that reads; those on what is no part of the policy are left out."""
    found = Comments()
    for path, comment in outline.of(text).comments:
        match path:
            case ():
                found.whole.append(comment)
            case (variables.KEY,):
                found.on_variables.append(comment)
            case ("layer", int(layer)):
                found.parts.setdefault((layer + 1, None), []).append(comment)
            case ("layer", int(layer), str(kind), int(rule)):
                found.parts.setdefault((layer + 1, Numbered(kind, rule + 1)), []).append(comment)
    return found
