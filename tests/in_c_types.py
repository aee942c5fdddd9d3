"""How types, records and comments are written in C. Used by tests/in_c.py and tests/in_c_inline.py."""
import re
import textwrap

TYPES = {"usize": "size_t", "u8": "uint8_t", "u32": "uint32_t", "u64": "uint64_t", "i32": "int32_t", "bool": "bool"}


def c_name(record):
    """Returns the name of a record in C: pw_mask_answer for MaskAnswer."""
    return "pw" + re.sub(r"([A-Z])", lambda m: "_" + m.group(1).lower(), record)


def declared(name, kind):
    """Returns the declaration of an argument or a field."""
    lent = re.fullmatch(r"\*(const|mut) (\w+)", kind)
    array = re.fullmatch(r"(?:\*(const|mut) )?\[(\w+); (\d+)\]", kind)
    if lent:
        return ("const " if lent[1] == "const" else "") + f"{TYPES[lent[2]]} *{name}"
    if array:
        return ("const " if array[1] == "const" else "") + f"{TYPES[array[2]]} {name}[{array[3]}]"
    return f"{TYPES.get(kind) or c_name(kind)} {name}"


def comment(text):
    lines = textwrap.wrap(text, 132, break_on_hyphens=False)
    return "/* " + "\n * ".join(lines) + " */\n"
