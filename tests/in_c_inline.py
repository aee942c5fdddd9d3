"""Makes the functions that include/poruwhina.h defines itself, over the exports: texts of refusals, builders and cursors by pointer, cuts
that write their mask only if they are accepted, and the import of a counted mask. Used by tests/in_c.py."""
import in_refusals
from exports import exports, lowered, records, wrapped
from in_c_types import TYPES, c_name, comment, declared

# The cut for each export whose refused answer has the mask that was passed.
CUTS = {"pw_slice": "pw_cut", "pw_grid_row": "pw_cut_row"}


def head(result, name, arguments):
    """Returns the first lines of a function's definition."""
    lines = wrapped([f"static inline {result} {name}({arguments[0]}", *arguments[1:]], 116)
    return "\n    ".join(lines)[:-1] + ") {\n"


def called(export, given):
    """Returns a call of an export, broken where it is long."""
    lines = wrapped([f"{export.name}({given[0]}", *given[1:]], 100)
    return "\n        ".join(lines)[:-1] + ");\n"


def result(export):
    return TYPES.get(export.result) or c_name(export.result)


def texts():
    """Returns the function that gives the text of a refusal."""
    arms = [f"    case {one.constant}:\n        return \"{one.text}\";\n" for one in in_refusals.given()]
    return (
        comment("Returns what a refusal means, in the words that the Rust crate prints; for 0, that the call was accepted.")
        + "static inline const char *pw_refusal_text(uint8_t refusal) {\n    switch (refusal) {\n"
        + '    case 0:\n        return "accepted";\n' + "".join(arms)
        + '    default:\n        return "no refusal has this number";\n    }\n}\n'
    )


def taking(fields):
    """Yields the exports whose first arguments are these fields, each with the number of them that it takes: at least three."""
    for export in exports():
        same = 0
        while same < min(len(fields), len(export.arguments)) and fields[same] == export.arguments[same]:
            same += 1
        if same >= 3:
            yield export, same


def builders():
    """Returns a builder that keeps its serial, and for each export that takes a builder's numbers a function that takes it by pointer."""
    return [
        comment("---- A builder with its serial, by pointer: so that no serial is lost between a builder and its mask."),
        comment("A builder and the serial that its mask will have.")
        + "typedef struct {\n    pw_builder builder;\n    uint32_t serial;\n} pw_serial_builder;\n",
        comment("Returns a builder with no flags and this serial.")
        + "static inline pw_serial_builder pw_serial_builder_new(uint32_t serial) {\n"
        + "    pw_serial_builder b = {pw_builder_new(), serial};\n    return b;\n}\n",
        *(builder_call(export, list(lowered(export.arguments[same:]))) for export, same in taking(records()["Builder"][1])),
    ]


def builder_call(export, rest):
    """Returns the function by pointer of an export. An append changes the builder unless it is refused, and returns the number; a call
    that ends a builder returns the export's answer."""
    appends = export.result == "BuilderAnswer"
    taken = [declared(*argument) for argument in rest if argument[0] != "serial"]
    given = [f"b->builder.{field}" for field in ("length", "word", "ones")]
    given += ["b->serial" if name == "serial" else name for name, _ in rest]
    name = export.name.replace("pw_", "pw_serial_", 1)
    first = f"{'' if appends else 'const '}pw_serial_builder *b"
    lines = head("uint8_t" if appends else result(export), name, [first, *taken])
    if appends:
        lines += f"    {result(export)} a = {called(export, given)}    b->builder = a.builder;\n    return a.refusal;\n}}\n"
    else:
        lines += f"    return {called(export, given)}}}\n"
    told = "returns its answer. The builder does not change."
    if appends:
        told = "returns 0, or the number of a refusal, after which the builder is unchanged."
    return comment(f"Calls {export.name} with the builder and its serial, and {told}") + lines


def cursors():
    """Returns for each export that takes a cursor's numbers a function that takes the cursor by pointer and moves it."""
    heading = (
        "---- Cursors by pointer. Each function calls the export of its name with the cursor's numbers, stores the place of the answer in"
        " the cursor, and returns the answer: after a refusal, and where nothing is `found`, a loop over `found` ends."
    )
    return [comment(heading), *(cursor_call(export, same) for export, same in taking(records()["Cursor"][1]))]


def cursor_call(export, same):
    rest = list(lowered(export.arguments[same:]))
    given = [f"cursor->{field}" for field, _ in export.arguments[:same]] + [name for name, _ in rest]
    name = export.name.replace("pw_", "pw_cursor_", 1)
    return (
        comment(f"Calls {export.name} and moves the cursor, which a refusal leaves where it is.")
        + head(result(export), name, ["pw_cursor *cursor", *(declared(*argument) for argument in rest)])
        + f"    {result(export)} a = {called(export, given)}    cursor->place = a.place;\n    return a;\n}}\n"
    )


def cuts():
    """Returns the import of a counted mask, and the cuts that write their mask only if they are accepted."""
    heading = "---- Masks from elsewhere, and cuts: a refusal leaves no mask with more flags than were asked for."
    by_name = {export.name: export for export in exports()}
    return [comment(heading), IMPORT, *(cut(by_name[name], cutting) for name, cutting in CUTS.items())]


IMPORT = (
    comment(
        "Returns the mask of the `length` flags of `bytes` that start at bit `start`, of which a record from elsewhere states `zeros` and"
        " `serial`, with the count known. The zeros are counted: a count that is not exact is refused. Refuses with 1, 2, 3; every other"
        " field is then 0."
    )
    + "static inline pw_mask_answer pw_import(const uint8_t *bytes, size_t bytes_len, size_t start, size_t length,\n"
    + "    size_t zeros, uint32_t serial) {\n"
    + "    pw_mask_answer made = {0, {start, length, zeros, 1, serial}};\n"
    + "    pw_mask none = {0, 0, 0, 0, 0};\n"
    + "    made.refusal = pw_unset_bits(made.mask, bytes, bytes_len).refusal;\n"
    + "    if (made.refusal != 0) made.mask = none;\n"
    + "    return made;\n}\n"
)


def cut(export, name):
    taken = [declared(*argument) for argument in lowered(export.arguments)]
    given = [argument for argument, _ in lowered(export.arguments)]
    told = (
        f"Writes to `out` the mask that {export.name} returns, and returns 0; or returns the number of its refusal, and writes nothing."
        " Give `out` a mask of no flags before, pw_bitmap_new(), so that no refusal that is overlooked leaves flags in it."
    )
    return (
        comment(told) + "PW_MUST_USE\n" + head("uint8_t", name, [*taken, "pw_mask *out"])
        + f"    {result(export)} a = {called(export, given)}    if (a.refusal == 0) *out = a.mask;\n    return a.refusal;\n}}\n"
    )
