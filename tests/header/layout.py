#!/usr/bin/env python3
"""layout.py WHAT: the structs of crates/exports/src/answers.rt and the correction of crates/editor/src/editing.rt, which the archive has, as the header
and the binding for Rust have to have them.

lines    a line `tag field offset size` for each field and `tag size` for each struct, as C lays them out; then the header's numbers, a line
         `NAME number` for each name of an enum, and the refusals by the names of docs/FORMAT.md, a line `number NAME` each
c, rust  a program in that language that prints these lines, of include/plane_record.h and of examples/rust/plane_record.rs
calls    the names of the exported functions
"""
import ctypes
import glob
import os
import re
import sys

ROOT = os.path.dirname(os.path.dirname(os.path.dirname(os.path.abspath(__file__))))
# The files that have them. What is laid out as C does it says so by #[repr(C)], and nothing else there is looked at.
FILES = [("crates", "exports", "src", "answers.rt"), ("crates", "editor", "src", "editing.rt")]
# A struct's tag is another word than the function of that name, which C++ would hide it behind.
TAGS = {"PlaneItem": "item_fields", "PlaneText": "text_part", "PlaneEvent": "event_found", "PlaneWord": "word_found", "PlaneRecord": "record_found",
        "PlaneEntry": "entry_found", "Correction": "correction"}
# A field that has another name in C and Rust, since this one is a word of C++.
FIELDS = {"operator": "operator_id"}
NUMBERS = {"u8": ctypes.c_uint8, "u16": ctypes.c_uint16, "u32": ctypes.c_uint32, "u64": ctypes.c_uint64, "usize": ctypes.c_size_t}


# Where the binding for Rust has the names of an enum of the header, and what their prefix is here.
PLACES = {"class": ("class::", "PLANE_"), "kind": ("kind::", "PLANE_"), "corrected": ("corrected::", "PLANE_CORRECTED_"), "sizes": ("", "PLANE_")}


def source(*path):
    return open(os.path.join(ROOT, *path), encoding="utf-8").read()


def structs():
    """The structs, by their tag without `plane_`: the ctypes of each."""
    types, found = dict(NUMBERS), {}
    for name, body in re.findall(r"#\[repr\(C\)\]\n(?:#\[[^\n]*\]\n)*pub struct (\w+) \{\n(.*?)\n\}", "".join(source(*path) for path in FILES), re.S):
        fields = [(FIELDS.get(field, field), types[kind]) for field, kind in re.findall(r"^ +pub (\w+): (\w+),$", body, re.M)]
        types[name] = type(name, (ctypes.Structure,), {"_fields_": fields})
        found[TAGS.get(name, name[len("Plane"):].lower())] = types[name]
    return found


def numbers():
    """The header's enums: the enum's tag without `plane_`, a name and its number."""
    for tag, body in re.findall(r"^enum plane_(\w+) \{(.*?)\};", source("include", "plane_record.h"), re.M | re.S):
        for name, number in re.findall(r"(PLANE_\w+) = (\w+)", body):
            yield tag, name, int(number, 0)


def refusals():
    """The rows of docs/FORMAT.md: number and name."""
    return re.findall(r"^\| (\d+) \| ([A-Z ]+) \| [^|]+ \| [^|]+ \| [^|]+ \|$", source("docs", "FORMAT.md"), re.M)


def lines():
    for tag, struct in structs().items():
        for field, _ in struct._fields_:
            yield "%s %s %d %d" % (tag, field, getattr(struct, field).offset, getattr(struct, field).size)
        yield "%s %d" % (tag, ctypes.sizeof(struct))
    yield from ("%s %d" % (name, number) for _, name, number in numbers())
    yield from ("%s %s" % row for row in refusals())


def c():
    yield '#include "plane_record.h"\n#include <stdio.h>\nint main(void) {'
    for tag, struct in structs().items():
        name = "struct plane_" + tag
        for field, _ in struct._fields_:
            yield '    printf("%s %s %%zu %%zu\\n", offsetof(%s, %s), sizeof((%s *)0)->%s);' % (tag, field, name, field, name, field)
        yield '    printf("%s %%zu\\n", sizeof(%s));' % (tag, name)
    for _, name, _ in numbers():
        yield '    printf("%s %%d\\n", (int)%s);' % (name, name)
    yield '    for (uint32_t n = 1; n <= PLANE_REFUSED_NO_ENTRY; n++)'
    yield '        if (plane_refusal_name(n)[0] != \'U\') printf("%u %s\\n", n, plane_refusal_name(n));'
    yield "    return 0;\n}"


def rust():
    yield '#[path = "%s/examples/rust/plane_record.rs"]\nmod plane_record;\nuse plane_record::ffi;\nuse std::mem::{offset_of, size_of};' % ROOT
    yield "fn wide<S, T>(_: fn(&S) -> &T) -> usize {\n    size_of::<T>()\n}\nfn main() {"
    for tag, struct in structs().items():
        name = "ffi::" + "".join(part.capitalize() for part in tag.split("_"))
        for field, _ in struct._fields_:
            yield '    println!("%s %s {} {}", offset_of!(%s, %s), wide(|s: &%s| &s.%s));' % (tag, field, name, field, name, field)
        yield '    println!("%s {}", size_of::<%s>());' % (tag, name)
    for tag, name, number in numbers():
        place, prefix = PLACES.get(tag, (None, None))
        if place is None:
            words = name.replace("PLANE_REFUSED_", "").split("_")
            value = "0" if number == 0 else "plane_record::Refusal::%s.number()" % "".join(word.capitalize() for word in words)
        else:
            value = "plane_record::%s%s" % (place, name[len(prefix):])
        yield '    println!("%s {}", %s);' % (name, value)
    yield "    (1..=26).filter_map(plane_record::Refusal::of_number).for_each(|refusal| println!(\"{refusal}\"));"
    yield "}"


def calls():
    for path in sorted(glob.glob(os.path.join(ROOT, "crates", "exports_c", "src", "*.rt"))):
        yield from re.findall(r'pub extern "C" fn (\w+)', source(path))


print("\n".join({"lines": lines, "c": c, "rust": rust, "calls": calls}[sys.argv[1]]()))
