#!/usr/bin/env python3
"""Holds public calls against their pins and their rows.

    python3 tools/pins.py        from the repository's root

For each crate: its `pub fn`, and which of them have a pin, `pub NAME : ..` in proofs/Pins.antt, and a row in docs/PROMISES.md.
A pin has the call's name, with - or _ in it, and `_lem` after it where a definition has that name. Where a call belongs to a type, the
type's name or another word may stand before it, and of pins with such names its own is the one that names its promise.
It is stated over its call's own promise, the generated `Post`, and by `OneOutcome` where the call is lent anything to write.
The pin of a call that moves a frame in place names the generated `clauses` and what they ensure.
Exits 1 if a call lacks its pin or its row, if the call of a pin or of a row is gone, or if a pin does not name its call's promise.
"""
import glob
import os
import re
import sys

CALL = re.compile(r'^\s*pub (?:extern "C" )?fn (\w+)(.*?)(?=\n\s*(?:requires|ensures)\b|\{)', re.M | re.S)
PIN = re.compile(r"^\s*pub ([^\s:]+) :(.*?)(?=^\s*(?:unfolding\b|\1\s))", re.M | re.S)
USE = re.compile(r"^use Rattle\.\w+\.(?:proofs|specs\.contracts)\.(\S+) as (\S+)$", re.M)
ROW = re.compile(r"^\| `(\w+(?:::\w+)+)", re.M)
IMPL = re.compile(r"^impl(?:<[^>]*>)? (?:.* for )?(\w+)", re.M)
# Lines of Pins.antt that are no call's pin: what tells two answers apart.
TELLS = re.compile(r"[-_]tells$")
# Calls that promise nothing of what they print or read: what is printed is no result, and no promise can say what a file holds.
SILENT = ("packed::print_wrong", "packed::print_tally", "packed::read_file", "packed::replay")
# A static library, and the library whose calls it exports. An export has the parameters and the clauses of its call, so that call's pin and row are its own.
EXPORTED = {"exports_c": "exports"}
# What stands between a function's name and its body.
SIGNED = re.compile(r'^pub (?:extern "C" )?fn (\w+)(.*?)^\{', re.M | re.S)
# Calls whose pins name their clauses.
BY_CLAUSES = ("frame::forward", "frame::backward", "frame::reset")


def text(path):
    with open(path) as file:
        return file.read()


def calls(crate):
    """The public calls of a crate, with their type's name before them where they belong to one, and their parameters."""
    for path in sorted(glob.glob(f"{crate}/src/**/*.rt", recursive=True)):
        source = text(path)
        for found in CALL.finditer(source):
            owner = ""
            if source[found.start():].lstrip("\n").startswith(" "):
                owner = [m.group(1) for m in IMPL.finditer(source, 0, found.start())][-1] + "::"
            yield owner + found.group(1), found.group(2)


def pins(crate):
    """The pins of a crate with their statements, and which generated module each name in them stands for."""
    path = f"{crate}/proofs/Pins.antt"
    source = text(path) if os.path.isfile(path) else ""
    return dict(PIN.findall(source)), {name: module for module, name in USE.findall(source)}


def pin_of(call, held, named):
    """The pin of a call among those that are held, or None. `named` tells whether a pin names the call's promise."""
    name, owned = call.split("::")[-1], call.lower().replace("::", "_")
    plain = {pin: pin.replace("-", "_").removesuffix("_lem") for pin in held}
    found = [pin for wanted in (owned, name) for pin in held if plain[pin] == wanted]
    if "::" in call:
        found += [pin for pin in held if plain[pin].endswith("_" + name) and pin not in found]
    return next(filter(named, found), found[0] if found else None)


def says(call, by_hand, stated, modules):
    """Whether a pin's statement names the promise of its call."""
    module, field = (call.replace("::", "."), "clauses") if by_hand else (call.replace("::", ".") + ".Reads", "Post")
    return any(modules[name] == module and re.search(rf"(?<![\w·-]){re.escape(name)}\.{field}(?!\w)", stated) for name in modules)


def faults_of(crate, name, rows):
    """How many public calls and pins a crate has, and what is wrong with them."""
    held, modules = pins(crate)
    found, used, faults = list(calls(crate)), set(), []
    for call, parameters in found:
        full = f"{name}::{call}"
        by_hand = full in BY_CLAUSES
        pin = pin_of(call, held, lambda pin: says(call, by_hand, held[pin], modules))
        used.add(pin)
        if full not in rows:
            faults.append(f"no row: {call}")
        if full in SILENT:
            continue
        if pin is None:
            faults.append(f"no pin: {call}")
        elif not says(call, by_hand, held[pin], modules):
            faults.append(f"pin that does not name its call's promise: {pin}")
        elif "&mut" in parameters and not by_hand and "OneOutcome" not in held[pin]:
            faults.append(f"pin that leaves out what was lent to be written: {pin}")
    faults += [f"pin of no call: {pin}" for pin in sorted(set(held) - used) if not TELLS.search(pin)]
    return found, len(used - {None}), faults


def signatures(crate):
    """Each public function of a library's root file, with its parameters, its answer and its clauses, whatever the layout."""
    return {name: "".join(said.split()).replace(",)", ")") for name, said in SIGNED.findall(text(f"crates/{crate}/src/lib.rt"))}


def exported_faults(crate, library):
    """The calls that a static library exports otherwise than they stand in its library, or not at all."""
    made, given = signatures(library), signatures(crate)
    return [f"exported otherwise than in {library}: {name}" for name in sorted(made.keys() | given.keys()) if made.get(name) != given.get(name)]


def main():
    rows = set(ROW.findall(text("docs/PROMISES.md")))
    public, wrong = set(), 0
    for crate in sorted(glob.glob("crates/*")):
        name = os.path.basename(crate)
        if name in EXPORTED:
            faults = exported_faults(name, EXPORTED[name])
            print(f"{name}: exports the calls of {EXPORTED[name]}" + "".join("\n  " + fault for fault in faults))
            wrong += len(faults)
            continue
        found, pinned, faults = faults_of(crate, name, rows)
        if found or faults:
            print(f"{name}: {len(found)} public calls, {pinned} pins" + "".join("\n  " + fault for fault in faults))
        public.update(f"{name}::{call}" for call, _ in found)
        wrong += len(faults)
    for row in sorted(rows - public):
        print(f"row of no call: {row}")
    wrong += len(rows - public)
    print(f"{len(public)} public calls, {wrong} faults")
    sys.exit(1 if wrong else 0)


main()
