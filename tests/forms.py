#!/usr/bin/env python3
"""Turns the compiler's form of crates, a file mir.json for each, into rows of words with tabs between, for
tests/calls.awk and tests/local_lists.awk:

    function NAME
    call CALLER CALLED           for each call of a function by its name
    uses CALLER IMPL             for each impl whose methods the caller calls, or hands to a generic function that calls them: a closure
                                 is the impl of a trait of functions
    method IMPL FUNCTION         for each function that is a method of an impl
    bound CALLER N METHOD        for each call by a bound of the caller: the numbers of bound and method, from 0
    unknown CALLER               for each call of something else, and each function that is named and not called
    local NAME ELEMENTS LIST     for each local of the function that is or holds a list; ? for one that is not known

What a generic function calls by a bound is among what its caller uses. A local counts with the elements of the longest
list that it holds, also by the fields of structs and enums; a list of lists counts with all the lists that it holds.
What stands behind a reference is lent, and counted where it is local; a value of a type that is a parameter, or a list
whose length is one, is counted where a caller has it.
"""
import json
import sys


class Unknown(Exception):
    pass


def impls_in(dicts):
    """The impls by which the bounds of a call are met."""
    for it in dicts:
        if list(it) == ["Impl"]:
            yield it["Impl"][0]
            yield from impls_in(it["Impl"][2])


def called_in(body):
    """The functions that are called by their names, the impls used, the bounds with the number of the method that is
    called by each, and how many calls or names there are beside these."""
    called, used, by_bound, named = [], [], [], 0
    left = [body]
    while left:
        at = left.pop()
        if isinstance(at, list):
            left.extend(reversed(at))
        elif isinstance(at, dict):
            for key, value in at.items():
                if key == "Call":
                    (word, callee), = value[0].items() if isinstance(value[0], dict) else [("", None)]
                    if word == "Fn":
                        called.append(callee[0])
                        used.extend(impls_in(callee[1]["dicts"]))
                    elif word == "Method":
                        used.extend(impls_in([callee[0], *callee[2]["dicts"]]))
                        if "Given" in callee[0]:
                            by_bound.append((str(callee[0]["Given"]), str(callee[1])))
                    else:
                        named += 1
                    left.extend(reversed(value[1:]))
                elif key == "Fn":
                    named += 1
                else:
                    left.append(value)
    return called, used, by_bound, named


def elements(kind, shapes, in_list=False, given=()):
    """The elements of the longest list in a type, or of all its lists if it stands in a list; 0 where there is none."""
    if isinstance(kind, str):
        if kind not in ("Unit", "Bool", "Ptr"):
            raise Unknown(kind)
        return 0
    (word, value), = kind.items()
    if word in ("Int", "Float", "Ref", "Const"):
        return 0
    if word == "Param":
        return elements(*given[value]) if value < len(given) else 0
    if word == "Array":
        element, size = value
        (how, length), = size.items()
        if how == "Param":
            if length >= len(given) or "Const" not in given[length][0]:
                return 0
            how, length = "Lit", given[length][0]["Const"]
        if how != "Lit":
            raise Unknown("the length of a list is no number")
        return length * (elements(element, shapes, True, given) or 1)
    if word == "Named":
        named, arguments = value
        handed = [(filled(it, given), shapes, in_list) for it in arguments]
        if named["name"] not in shapes:
            return max([elements(*it) for it in handed], default=0)
        (form, value), = shapes[named["name"]].items()
        if form not in ("Fields", "Variants"):
            raise Unknown(form)
        parts = value if form == "Fields" else [part for variant in value for part in variant]
        found = [elements(part, shapes, in_list, handed) for part in parts]
    elif word == "Struct":
        found = [elements(part, shapes, in_list, given) for part in value[1]]
    else:
        raise Unknown(word)
    return sum(found) if in_list else max(found, default=0)


def filled(kind, given):
    """A type with what stands for its parameters."""
    if isinstance(kind, list):
        return [filled(it, given) for it in kind]
    if not isinstance(kind, dict):
        return kind
    if list(kind) == ["Param"] and kind["Param"] < len(given):
        return given[kind["Param"]][0]
    return {key: filled(value, given) for key, value in kind.items()}


def shown(kind):
    if isinstance(kind, str):
        return kind
    (word, value), = kind.items()
    if word == "Int":
        return f"u{value}"
    if word == "Array":
        return f"[{shown(value[0])}; {value[1].get('Lit', 'N')}]"
    if word == "Named":
        return value[0]["name"]
    return value[0] if word == "Struct" else word


def lent_in(body):
    """The types of the constants that a body lends."""
    left = [body]
    while left:
        at = left.pop()
        if isinstance(at, list):
            left.extend(at)
        elif isinstance(at, dict):
            if "LendStatic" in at:
                yield at["LendStatic"][1]
            left.extend(at.values())


def rows_of(name, function):
    yield "function", name
    called, used, by_bound, named = called_in(function["body"])
    for other in called:
        yield "call", name, other
    for impl in used:
        yield "uses", name, impl
    for bound in by_bound:
        yield "bound", name, *bound
    method_of = function["generics"]["method_of"]
    if method_of and "Impl" in method_of:
        yield "method", method_of["Impl"][0], name
    for _ in range(named):
        yield "unknown", name
    shapes = {it["name"]: it["shape"] for it in function["types"]}
    for kind in [local["ty"] for local in function["locals"]] + list(lent_in(function["body"])):
        try:
            most = elements(kind, shapes)
            if most:
                yield "local", name, str(most), shown(kind)
        except Unknown as unknown:
            yield "local", name, "?", str(unknown)


for path in sys.argv[1:]:
    with open(path, encoding="utf-8") as file:
        for name, function in json.load(file):
            for row in rows_of(name, function):
                print(*row, sep="\t")
