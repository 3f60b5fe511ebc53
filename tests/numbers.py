"""Compares the numbers and calls that are written by hand in several places with those of the crates, which are proved. A list
is a dict, of each number its name; names are compared by their letters and digits alone."""

import ctypes as c
import glob
import re
import sys
from dataclasses import fields

from bistortpost import _library, names, values

HEADER, C_NAMES = "c/mqtt5.h", "c/mqtt5_names.h"
# Other words for a name: of a property in Rust, of the standard's reason codes in the crates and in the header, and of what a
# call answers in the header and in Python.
PROPERTIES = {
    "subscriptionidentifiers": "subscriptionidentifier",
    "subscriptionidentifiersavailable": "subscriptionidentifieravailable",
    "userproperties": "userproperty",
}
REASONS = {
    "normaldisconnection": "success",
    "successqosatmostonce": "success",
    "successqosatleastonce": "grantedqos1",
    "successqosexactlyonce": "grantedqos2",
    "badusernamepassword": "badusernameorpassword",
    "continue": "continueauthentication",
    "disconnectwithwill": "disconnectwithwillmessage",
    "implementationspecific": "implementationspecificerror",
    "pkidinuse": "packetidentifierinuse",
    "reauthentivate": "reauthenticate",
    "sharedsubscriptionnotsupported": "sharedsubscriptionsnotsupported",
    "subscriptionidnotsupported": "subscriptionidentifiersnotsupported",
    "unspecified": "unspecifiederror",
}
ANSWERS = {
    "awaitsping": "awaitpingresp",
    "connectionrefused": "connfail",
    "packettoolarge": "outgoingpackettoolarge",
}
KINDS = {"u8": "byte", "u16": "two", "u32": "four", "varint": "varint", "text": "text", "bytes": "binary"}
wrong = []


def read(path):
    with open(path, encoding="utf-8") as file:
        return file.read()


def plain(name, words=None):
    letters = re.sub("[^a-z0-9]", "", name.lower())
    return (words or {}).get(letters, letters)


def pairs(pattern, *paths, words=None):
    """The numbers and names that a pattern finds, by its groups `number` and `name`."""
    found = {}
    for path in paths:
        for match in re.finditer(pattern, read(path), re.MULTILINE):
            found.setdefault(int(match["number"]), set()).add(plain(match["name"], words))
    for number, several in found.items():
        if len(several) > 1:
            wrong.append(f"{', '.join(paths)}: {number} is {' and '.join(sorted(several))}")
    return {number: min(several) for number, several in found.items()}


def same(what, found, wanted):
    for number in sorted(found.keys() | wanted.keys(), key=str):
        if found.get(number) != wanted.get(number):
            wrong.append(f"{what}: {number} is {found.get(number)}, and {wanted.get(number)} in the crates")


def within(what, found, wanted):
    same(what, found, {number: wanted.get(number) for number in found})
    if not found:
        wrong.append(f"{what}: there is nothing")


def in_header(first, last, words=None, prefix="MQTT5_"):
    """The numbers of the header's enum from this name to that."""
    listed = read(HEADER).split(f" {prefix}{first} = ")[1].split("}")[0]
    found = re.findall(rf"{prefix}(\w+) = (\d+)", f"{prefix}{first} = {listed}")
    assert found[-1][0] == last, found[-1]
    return {int(number): plain(name, words) for name, number in found}


def in_c_names(call):
    """What a call of the header of names answers."""
    listed = read(C_NAMES).split(f" *{call}(")[1].split("default:")[0]
    return {int(number): plain(name) for number, name in re.findall(r'case (\d+): return "(.*)"', listed)}


# ---- Properties (MQTT 5.0 table 2-4).


def properties():
    source = "crates/mqtt5_base/src/property.rt"
    crates = pairs(r"^        (?P<number>\d+) => (?:\{\n.*\n\s*)?Property::(?P<name>\w+)", source)
    kinds = re.findall(r"(\d+) => Property::\w+\(read_(\w+)\(", read(source))
    kinds = {int(number): KINDS[kind] for number, kind in kinds} | {38: "pair"}
    made = "crates/mqtt5_properties/src/making.rt"
    same(made, pairs(r"(?P<number>\d+) => Property::(?P<name>\w+)", made) | {38: "userproperty"}, crates)
    same(HEADER, in_header("PAYLOAD_FORMAT_INDICATOR", "SHARED_SUBSCRIPTION_AVAILABLE"), crates)

    same("values.py", {number: plain(name) for name, number in values.IDENTIFIERS.items()}, crates)
    if {f.name for f in fields(values.Properties)} != set(values.IDENTIFIERS):
        wrong.append("values.py: Properties has other names than IDENTIFIERS")
    for kind, numbers in ("text", values.TEXTS), ("binary", values.BINARY), ("pair", values.PAIRS):
        same(f"values.py, {kind}", dict.fromkeys(numbers, kind), {n: k for n, k in kinds.items() if k == kind})

    rust = "rust/bistortpost/src/properties.rs"
    once = r"\((?P<number>\d+), Place::(?P<kind>\w+)\(&mut self\.(?P<name>\w+)\)"
    often = pairs(r"in &self\.(?P<name>\w+) \{\s*take\((?P<number>\d+)", rust, words=PROPERTIES)
    same(rust, pairs(once, rust, words=PROPERTIES) | often, crates)
    placed = {int(match["number"]): match["kind"].lower() for match in re.finditer(once, read(rust))}
    same(f"{rust}, kinds", placed, {number: kind for number, kind in kinds.items() if number not in often})


# ---- Reason codes (MQTT 5.0 section 2.4).


def reason_codes():
    sources = [f"crates/mqtt5_control/src/{name}.rt" for name in ("auth", "connack", "disconnect")]
    sources += [f"crates/mqtt5_publish/src/{name}.rt" for name in ("puback", "pubrel")]
    sources += [f"crates/mqtt5_subscribe/src/{name}.rt" for name in ("suback", "unsuback")]
    reason = r"^ +(?P<number>\d+) => (?:Ok\()?\w+(?:ReasonCode|ReturnCode|Reason)::(?P<name>\w+(?:\(QoS::\w+\))?)"
    crates = pairs(reason, *sources, words=REASONS)
    last = "WILDCARD_SUBSCRIPTIONS_NOT_SUPPORTED"
    same(HEADER, in_header("SUCCESS", last, REASONS, "MQTT5_REASON_"), crates)
    same(C_NAMES, in_c_names("mqtt5_reason_name"), crates)
    same("names.py", {number: plain(name) for number, name in names.REASONS.items()}, crates)


# ---- What a call answers.


def answers():
    fault = r"^            {}::(?P<name>\w+).* => (?P<number>[1-9]\d*),"
    session = pairs(fault.format("StateError"), "crates/mqtt5_inflight/src/error.rt")
    packets = pairs(fault.format("Error"), "crates/mqtt5_base/src/error.rt")
    handle = pairs(r"const (?P<name>\w+): u32 = (?P<number>2\d\d);", "crates/mqtt5_c/src/number.rt")
    stored = pairs(r"^        StoreError::(?P<name>\w+).* => (?P<number>2\d\d),", "crates/mqtt5_c/src/store.rt")
    handle |= {number: f"store{name}" for number, name in stored.items()}
    crates = session | {100 + number: name for number, name in packets.items()} | handle
    for letter, listed in ("S", session), ("E", packets):
        row = rf"^\| {letter}(?P<number>\d+) \| `(?P<name>\w+)`"
        same(f"docs/PROGRAM.md, {letter}", pairs(row, "docs/PROGRAM.md"), listed)
    same(HEADER, in_header("DONE", "STORE_TWICE", ANSWERS), session | handle | {0: "done"})
    why = in_header("INVALID_CONNECT_RETURN_CODE", "OUT_OF_MEMORY", prefix="MQTT5_E_")
    same(HEADER, why, {100 + number: name for number, name in packets.items()})
    same(C_NAMES, in_c_names("mqtt5_error_name"), crates | {0: "done"})
    same("names.py", {number: plain(name) for number, name in names.FAULTS.items()}, crates)
    python = ("AWAITS_PING", "PACKET_TOO_LARGE", "BAD_ARGUMENT", "SMALL_BUFFER", "ABSENT")
    within("_library.py", {getattr(_library, name): plain(name, ANSWERS) for name in python}, crates)
    rust = "rust/bistortpost/src/session.rs"
    within(rust, pairs(r"^const (?P<name>SMALL_BUFFER): u32 = (?P<number>\d+);", rust), crates)


# ---- Packet types (MQTT 5.0 section 2.1.2), and the kinds of an event.


def packet_types():
    crates = pairs(r"(?P<number>\d+) => PacketType::(?P<name>\w+)", "crates/mqtt5_base/src/header.rt")
    same(HEADER, in_header("CONNACK", "AUTH") | {1: "connect"}, crates)
    python = {number: plain(name) for name, number in vars(_library).items() if plain(name) in crates.values()}
    within("_library.py", python, crates)
    rust = "rust/bistortpost/src/session.rs"
    within(rust, pairs(r"^        +(?P<number>\d+) => (?:Packet|Outgoing)::(?P<name>\w+)", rust), crates)
    kinds = in_header("NO_EVENT", "DROPPED")
    same(f"{HEADER}, kinds", kinds, {0: "noevent", 1: "came", 2: "sent", 3: "waits", 4: "dropped"})
    within("_library.py, kinds", {_library.CAME: "came"}, kinds)


# ---- The calls, by the types of what they take, and an event.

TYPES = {
    **{f"uint{bits}_t": f"u{bits}" for bits in (8, 16, 32, 64)},
    "size_t": "usize",
    "mqtt5_event": "EventInfo",
    "mqtt5_client": "Handle",
    **{kind: f"u{8 * c.sizeof(kind)}" for kind in (c.c_uint8, c.c_uint16, c.c_uint32, c.c_uint64, c.c_size_t)},
    c.c_bool: "bool",
    c.c_char_p: "u8*",
    _library.EventInfo: "EventInfo",
}


def in_crates(listed):
    """A slice is a pointer and a length."""
    types = []
    for kind in re.findall(r"\w+: ([^,]+)", listed):
        if "[u8]" in kind:
            types += ["u8*", "usize"]
        elif kind != "Global":
            types.append(f"{kind[5:]}*" if kind.startswith("&mut ") else kind)
    return types


def in_c(listed):
    words = (re.fullmatch(r"(?:const )?(\w+) (\*?)\w+", " ".join(word.split())) for word in listed.split(","))
    return [TYPES.get(word[1], word[1]) + word[2] for word in words]


def in_rust(listed):
    kinds = re.findall(r"\w+: ([^,]+)", listed)
    return [f"{kind.split()[1]}*" if kind.startswith("*") else kind for kind in kinds]


def in_python(kind):
    if hasattr(kind, "contents"):
        return f"{TYPES[kind._type_]}*"
    # (a number that judges what it is given is made of one of C)
    return TYPES[kind if kind in TYPES else kind.__base__]


def calls_in(pattern, path, types_of):
    found = re.findall(pattern, read(path), re.MULTILINE)
    return {name: types_of(listed.rstrip().rstrip(",")) for name, listed in found}


def calls():
    crates = {}
    for path in sorted(glob.glob("crates/mqtt5_c/src/*.rt")):
        crates |= calls_in(r'extern "C" fn (mqtt5_\w+)\(([^)]*)\)', path, in_crates)
    same(HEADER, calls_in(r"^(?:uint32_t|bool) (mqtt5_\w+)\(([^)]*)\);", HEADER, in_c), crates)
    rust = "rust/bistortpost/src/ffi.rs"
    within(rust, calls_in(r"fn (mqtt5_\w+)\(([^)]*)\)", rust, in_rust), crates)
    python = {f"mqtt5_client_{name}": ["Handle*", *map(in_python, kinds)] for name, kinds in _library.CALLS.items()}
    # (two types of one size are one to ctypes)
    sizes = {name: [kind.replace("usize", in_python(c.c_size_t)) for kind in kinds] for name, kinds in crates.items()}
    within("_library.py", python, sizes)


def events():
    listed = re.search(r"struct EventInfo \{(.*?)\n\}", read("crates/mqtt5_c/src/event.rt"), re.DOTALL)[1]
    crates = dict(enumerate(re.findall(r"pub (\w+): (\w+)", listed)))
    listed = read(HEADER).split("} mqtt5_event;")[0].split("typedef struct {")[-1]
    found = re.findall(r"^    (\w+) (\w+);", listed, re.MULTILINE)
    same(f"{HEADER}, mqtt5_event", dict(enumerate((name, TYPES.get(kind, kind)) for kind, name in found)), crates)
    listed = re.search(r"struct EventInfo \{(.*?)\n\}", read("rust/bistortpost/src/ffi.rs"), re.DOTALL)[1]
    same("ffi.rs, EventInfo", dict(enumerate(re.findall(r"pub (\w+): (\w+)", listed))), crates)
    python = [(name, in_python(kind)) for name, kind in _library.EventInfo._fields_]
    sizes = {at: (name, kind.replace("usize", in_python(c.c_size_t))) for at, (name, kind) in crates.items()}
    same("_library.py, EventInfo", dict(enumerate(python)), sizes)


# ---- The version, as the library tells it, and as scripts/library.sh has it.


def version():
    crate = re.search(r'b"([^"]*)"', read("crates/mqtt5_c/src/version.rt"))[1]
    spec = bytes(map(int, re.findall(r"(\d+) ∷", read("crates/mqtt5_c/specs/Version.antt")))).decode()
    header = re.search(r'#define MQTT5_VERSION "(.*)"', read(HEADER))[1]
    installed = re.search(r"^library_version=(.*)$", read("scripts/library.sh"), re.MULTILINE)[1]
    for place, found in ("specs/Version.antt", spec), (HEADER, header), ("scripts/library.sh", installed):
        if found != crate:
            wrong.append(f"{place} has version {found}, and the library {crate}")


for compare in properties, reason_codes, answers, packet_types, calls, events, version:
    compare()
if wrong:
    print("\n".join(wrong))
    sys.exit(1)
print("properties, reason codes, answers, packet types, calls, events, version: the same in crates, C, Python and Rust")
