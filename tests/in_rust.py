"""Makes the exports of crates/capi in Rust: the declarations of bindings/rust/src/calls, a safe function for each of them, and the list of
their modules.

If an export's first numbers are the fields of a builder or a cursor, the function takes the record; if the export returns the place of
a cursor, the function returns the cursor. The example of a function is that of the export's comment."""
import re
import textwrap

from exports import ROOT, exports, interface, lowered, modules, records, wrapped

CALLS = ROOT / "bindings/rust/src/calls"
WIDTH = 140


def compressed(head, arguments, tail, indent=""):
    """Returns a function's head: on one line if it fits, else with its arguments on lines of their own, as many as fit on each."""
    one = f"{indent}{head}({', '.join(arguments)}){tail}"
    if len(one) <= WIDTH:
        return one + "\n"
    inside = wrapped(arguments, WIDTH - len(indent) - 4)
    return f"{indent}{head}(\n" + "".join(f"{indent}    {line}\n" for line in inside) + f"{indent}){tail}\n"


def declaration(export):
    arguments = [f"{name}: {kind}" for name, kind in lowered(export.arguments)]
    return compressed(f"pub fn {export.name}", arguments, f" -> {export.result};", "    ")


def taken(export):
    """Returns the function's own arguments, and what is passed to the export for them."""
    arguments, given, rest = [], [], export.arguments
    for record in ("Builder", "Cursor"):
        fields = records()[record][1]
        same = 0
        while same < min(len(fields), len(rest)) and fields[same] == rest[same]:
            same += 1
        if same >= 3:
            name = record.lower()
            arguments.append(f"{name}: {record}")
            given += [f"{name}.{field}" for field, _ in rest[:same]]
            rest = rest[same:]
    for name, kind in rest:
        arguments.append(f"{name}: {kind}")
        if re.fullmatch(r"&(mut )?\[\w+\]", kind):
            given += [f"{name}.as_mut_ptr()" if "mut" in kind else f"{name}.as_ptr()", f"{name}.len()"]
        else:
            given.append(name)
    return arguments, given


def call(name, given, before, after):
    """Returns the call of an export: on one line if it fits, else in a block, else with each argument on a line."""
    one = f"exports::{name}({', '.join(given)})"
    if len(f"    {before}unsafe {{ {one} }}{after}") <= WIDTH:
        return f"    {before}unsafe {{ {one} }}{after}\n"
    if before and len(f"        unsafe {{ {one} }}{after}") <= WIDTH:
        return f"    {before.rstrip()}\n        unsafe {{ {one} }}{after}\n"
    if len(f"        {one}") <= WIDTH:
        return f"    {before}unsafe {{\n        {one}\n    }}{after}\n"
    lines = "".join(f"            {argument},\n" for argument in given)
    return f"    {before}unsafe {{\n        exports::{name}(\n{lines}        )\n    }}{after}\n"


def linked(text, own):
    """Returns a text in which exports are links; one of another module by its path."""
    return re.sub(r"\bpw_(\w+)", lambda found: f"[`{found[1]}`]" + ("" if found[0] in own else f"(super::{found[1]})"), text)


def function(export, own):
    name = export.name.removeprefix("pw_")
    doc = linked(export.sentences(), own).replace("`place` is unchanged", "the cursor is unchanged")
    text = "".join(f"/// {line}\n" for line in textwrap.wrap(doc, 126, break_on_hyphens=False))
    text += f"///\n{export.example}" if export.example else ""
    arguments, given = taken(export)
    moves = export.result == "StepAnswer"
    text += "#[inline]\n" + compressed(f"pub fn {name}", arguments, f" -> {'Step' if moves else export.result} {{")
    if moves:
        text += call(export.name, given, "let answer = ", ";") + "    answer.moving(cursor)\n"
    else:
        text += call(export.name, given, "", "")
    return text + "}\n"


def module_list(found):
    """Returns calls/mod.rs with the lists of modules at its end written anew; `records` is written by hand."""
    above = re.split(r"(?m)^mod ", (CALLS / "mod.rs").read_text(), maxsplit=1)[0]
    names = sorted(found)
    lists = "".join(f"mod {name};\n" for name in names) + "\n" + "".join(f"pub use {name}::*;\n" for name in names if name != "exports")
    return above + lists


def files():
    """Returns each file that is written, and the functions that have no example."""
    found, lacking = exports(), []
    symbol = f"pw_interface_{interface()}"
    written = {
        "exports.rs": "//! The exports of the static library. Written by tests/declarations.py from crates/capi.\n\n"
        + "use super::records::*;\n\n"
        + 'unsafe extern "C" {\n'
        + "".join(declaration(export) for export in found)
        + "}\n\n/// A library of another version has no such symbol, and does not link.\n#[used]\n"
        + f'static INTERFACE: unsafe extern "C" fn() -> u32 = {symbol};\n'
    }
    for module, heading in modules():
        if module == "interface":
            continue
        heading = re.sub(r"\bpw_(\w+)", r"[`\1`]", heading)
        lines = "".join(f"//! {line}\n" for line in textwrap.wrap(heading, 126, break_on_hyphens=False))
        parts = [f"{lines}//!\n//! Written by tests/declarations.py from crates/capi.\n"]
        parts += ["use super::exports;\nuse super::records::*;\n"]
        own = {export.name for export in found if export.module == module}
        for export in found:
            if export.module == module:
                lacking += [] if export.example else [export.name]
                parts.append(function(export, own))
        written[f"{module}.rs"] = "\n".join(parts)
    written["mod.rs"] = module_list({"records", *(name.removesuffix(".rs") for name in written)})
    return {CALLS / name: text for name, text in written.items()}, lacking
