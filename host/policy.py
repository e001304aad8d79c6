"""What is trusted for one pull: a rule made of options, or the one of a policy file (docs/POLICY.md) that covers the image."""
import json
import re
from pathlib import Path
from typing import Any

import yaml as untyped_yaml

from host.files import read
from host.places import repository_of
from host.rules import Identity, Rule

yaml: Any = untyped_yaml
# the types of a policy's members: [T] is a list of T, and {str: T} a mapping with members of any name
IDENTITY = {"subject": str, "subjectRegExp": str, "issuer": str, "issuerRegExp": str}
RULE = {"images": str, "keys": [str], "identities": [IDENTITY], "annotations": {str: str}, "trustedRoot": str, "logKeys": [str], "requireLog": bool,
        "predicateTypes": [str]}
NAMES = {str: "a string (write it in quotes)", int: "an integer", bool: "true or false", list: "a list", dict: "a mapping"}


class Policy:
    """A policy file, read whole: its rules in order, each with the repositories that it covers."""

    def __init__(self, path: Path) -> None:
        self.path = path
        try:
            text = read(path).decode()
            text = text.replace("\t", " ") if text.lstrip().startswith("{") else text  # JSON may be indented by tabs, and YAML may not
            policy = self.value(yaml.compose(text, yaml.SafeLoader), {"version": int, "rules": [RULE]}, "the policy")
            json.dumps(policy, ensure_ascii=False).encode()  # which fails for half of a surrogate pair
        except yaml.YAMLError as error:
            raise self.error(error, str(getattr(error, "problem", error)).partition("\n")[0]) from None
        except (UnicodeError, RecursionError) as error:
            raise self.error(None, str(error)) from None
        if policy.get("version") != "1" or not policy.get("rules"):
            raise self.error(None, "it needs `version: 1`, and `rules` with at least one rule")
        self.rules = [self.rule(number, parts) for number, parts in enumerate(policy["rules"], 1)]

    def error(self, place: Any, problem: str) -> ValueError:
        mark = getattr(place, "start_mark", None) or getattr(place, "problem_mark", None)
        return ValueError(f"{self.path}{f', line {mark.line + 1}' if mark else ''} is not a policy: {problem}")

    def value(self, node: Any, form: Any, name: str) -> Any:
        """The value of a node that has the form."""
        kind = form if isinstance(form, type) else type(form)
        if kind is list and isinstance(node, yaml.SequenceNode):
            return [self.value(item, form[0], name) for item in node.value]
        if kind is dict and isinstance(node, yaml.MappingNode):
            found: dict[str, Any] = {}
            for key, item in node.value:
                member = str(key.value)
                if member in found or member not in form and str not in form:
                    raise self.error(key, f"{member} is given twice" if member in found else f"{name} has no member {member}")
                found[member] = self.value(item, form.get(member, str), member)
            return found
        if isinstance(node, yaml.ScalarNode) and node.tag == f"tag:yaml.org,2002:{kind.__name__}":
            return yaml.SafeLoader.bool_values[node.value.lower()] if kind is bool else str(node.value)
        raise self.error(node, f"{name} is not {NAMES[kind]}")

    def rule(self, number: int, parts: dict[str, Any]) -> tuple[str, Rule]:
        images = parts.get("images", "").rstrip("/")
        if repository_of(f"{images}/x").partition("/")[0] != images.partition("/")[0] or re.search("//|/.*[@:]", images):
            raise self.error(None, f"`images` of rule {number} is not a registry, or a registry and a path, without tag and digest")
        keys, log_keys = ([self.path.parent / name for name in parts.get(member, [])] for member in ("keys", "logKeys"))
        root = self.path.parent / parts["trustedRoot"] if "trustedRoot" in parts else None
        try:
            identities = [Identity(*map(one.get, IDENTITY)) for one in parts.get("identities", [])]
            rest = [parts.get("requireLog", False), parts.get("predicateTypes")]
            return images, Rule(keys, identities, parts.get("annotations", {}), root, log_keys, *rest)
        except (OSError, ValueError) as error:
            raise self.error(None, f"rule {number} ({images}): {error}") from None

    def for_reference(self, reference: str) -> Rule | None:
        """The first rule that covers the repository."""
        return next((rule for images, rule in self.rules if f"{repository_of(reference)}/".startswith(f"{images}/")), None)
