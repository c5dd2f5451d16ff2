"""Policies as texts."""
import re


def allow(role, action, collection="*", class_="*", **days):
    """A rule, which may have a first and a last day."""
    return {"effect": "allow", "role": role, "action": action, "collection": collection, "class": class_, **days}


def deny(*patterns, **days):
    """The same rule, which denies."""
    return {**allow(*patterns, **days), "effect": "deny"}


def policy(callers, *rules):
    """The text of a policy: of version 2 where a rule has days, and else of version 1."""
    lines = [f"version = {2 if any(it.keys() & {'first', 'last'} for it in rules) else 1}", "", "[callers]"]
    for name, role in callers.items():
        key = name if re.fullmatch("[A-Za-z0-9_-]+", name) else f'"{name}"'
        lines.append(f'{key} = "{role}"')
    for rule in rules:
        lines += ["", "[[rule]]", *(f'{key} = "{value}"' for key, value in rule.items())]
    return "\n".join(lines) + "\n"
