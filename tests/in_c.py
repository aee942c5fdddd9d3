"""Makes the exports of crates/capi in C: the part of include/poruwhina.h below its mark, which begins with the numbers of refusals."""
import re
import sys

import in_c_inline
import in_refusals
from exports import KEPT, ROOT, exports, interface, lowered, modules, records, wrapped
from in_c_types import TYPES, c_name, comment, declared

HEADER = ROOT / "include/poruwhina.h"
MARK = "/* ---- written by tests/declarations.py from include/refusals.txt and crates/capi: change it there */\n"
ORDER = "The numbers of refusals, each with the check that failed, in the order of the checks: of several that fail, the first one here."
# A warning for each call whose answer, if a program does not test `refusal`, may be taken for more flags than the mask has.
OVERLOOKED = {
    "pw_count_zeros": "a refused answer says 0 zeros, which is what a span of ones has: test `refusal` first.",
    "pw_into_opt_validity": "a refused answer has no mask, which otherwise means all ones: test `refusal` first.",
    "pw_slice": "a refused answer has `mask` whole, with all its flags: test `refusal` first, or call pw_cut.",
    "pw_grid_row": "a refused answer has `mask` whole, with all its flags: test `refusal` first, or call pw_cut_row.",
    "pw_unset_bits": "a refused answer has `mask` unchanged, and says 0 zeros, which is what a mask of ones has: test `refusal` first.",
}


def record(name, said, fields):
    body = "".join(f"    {declared(*field)};\n" for field in fields)
    return comment(said) + f"typedef struct {{\n{body}}} {c_name(name)};\n"


def prototype(export):
    arguments = [declared(*argument) for argument in lowered(export.arguments)] or ["void"]
    head = f"{TYPES.get(export.result) or c_name(export.result)} {export.name}("
    lines = wrapped([head + arguments[0], *arguments[1:]], 116)
    said = " ".join([export.sentences(), *apart(export), *warned(export)])
    return comment(said) + "\n    ".join(lines)[:-1] + ");\n"


def apart(export):
    """Yields a sentence for each buffer that an export writes: which others it must not overlap."""
    lent = [name for name, kind in export.arguments if kind.startswith("&")]
    written = [name for name, kind in export.arguments if kind.startswith("&mut ")]
    for at, name in enumerate(written):
        others = [f"`{other}`" for other in lent if other not in written[: at + 1]]
        if others:
            listed = " or ".join([", ".join(others[:-1]), others[-1]] if len(others) > 1 else others)
            yield f"No byte of `{name}` may be one of {listed}."


def warned(export):
    """Yields the warning of a call for which OVERLOOKED has one; each that returns a mask unchanged must have one."""
    if export.kept in (KEPT["as_same_mask"], KEPT["as_zeros"]) and export.name not in OVERLOOKED:
        sys.exit(f"{export.name}: a refused answer has the mask that came, and OVERLOOKED of tests/in_c.py has no warning for it")
    if export.name in OVERLOOKED:
        yield f"WARNING: {OVERLOOKED[export.name]}"


def version():
    """Returns the reference that makes a library of another version fail to link."""
    symbol = f"pw_interface_{interface()}"
    return (
        comment("The version of this file and of the library that it belongs to.")
        + f"#define PW_VERSION \"{release()}\"\n\n"
        + comment("The version of the interface: it is raised if a declaration changes so that a program has to change with it.")
        + f"#define PW_INTERFACE {interface()}\n\n"
        + comment(
            "The version of the interface that a library has. A program that includes this file refers to it, so that a library of another"
            " version does not link, where the compiler is GCC or Clang."
        )
        + f"uint32_t {symbol}(void);\n"
        + "#if defined(__GNUC__)\n"
        + "#if defined(__has_attribute)\n"
        + "#if __has_attribute(retain)\n"
        + "__attribute__((retain))\n"
        + "#endif\n"
        + "#endif\n"
        + f"__attribute__((used)) static uint32_t (*const pw_interface)(void) = {symbol};\n"
        + "#endif\n"
    )


def release():
    """Returns the version of the release, from the manifest of the workspace."""
    return re.search(r'^\[workspace\.package\]\nversion = "([\d.]+)"', (ROOT / "Cargo.toml").read_text(), re.M)[1]


def below():
    """Returns the part of the header below the mark."""
    parts = [comment(ORDER), in_refusals.in_header(), in_c_inline.texts(), "/* ---- records */\n"]
    parts += [*(record(name, *this) for name, this in records().items())]
    found = exports()
    for module, heading in modules():
        if module == "interface":
            parts += [*in_c_inline.builders(), *in_c_inline.cursors(), *in_c_inline.cuts(), "/* ---- version */\n", version()]
        else:
            parts += [comment("---- " + heading), *(prototype(export) for export in found if export.module == module)]
    end = "#ifdef __cplusplus\n}\n#endif\n\n#endif\n"
    return "\n".join([*parts, end])


def text():
    """Returns the header: unchanged above its mark, and below it as the sources say."""
    above, mark, _ = HEADER.read_text().partition(MARK)
    return above + MARK + "\n" + below()


def numbers():
    """Returns the named numbers of the header, each with the text of the comment above it."""
    found = re.findall(r"((?:/\*(?:(?!\*/).)*\*/\s*)?)#define (PW_\w+) (\d+)", text(), re.S)
    return {name: (int(number), re.sub(r"\s*\n \* ", " ", said).strip("/* \n")) for said, name, number in found}
