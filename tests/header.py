"""header.py [--self-test]: include/adsc.h against what crates/adschost_c exports: names, parameters in their order, widths, what is const, sizes, numbers.

A C compiler takes a wrong declaration without a word: the linker sees names alone. --self-test alters the header in memory, every declaration and
every number that is compared, each alone: each must be found.
"""
import pathlib
import re
import sys

ROOT = pathlib.Path(__file__).resolve().parent.parent
HEADER = ROOT / "include/adsc.h"
EXPORTS = ROOT / "crates/adschost_c/src"

# A type of Rattle as C parameters: a slice is a pointer and a length.
WIDTHS = {"u8": "uint8_t", "u32": "uint32_t", "usize": "size_t"}
SLICE = re.compile(r"&(mut )?\[(\w+)\]")
LENT = re.compile(r"&(mut )?(\w+)")

# A number of the header and the constant that it is.
CONSTANTS = {
    "refusals/src/lib.rt": {f"ADSC_{name}": name for name in (
        "NOT_PERMITTED", "CANNOT_OCCUR", "BAD_SETTING", "ELAPSE_OVER", "OUT_OF_RANGE", "NO_ROOM", "CUT_SHORT", "ABOVE_RANGE", "EXTENSION_SET", "NOT_CARRIED",
        "LIST_OVER", "FILLING", "OCTETS_AFTER", "NO_ELEMENT", "INPUT_OVER", "SCRIPT_LINE", "CHECK_WRONG", "OUT_OF_TURN", "NOT_READABLE", "BAD_RECORD")},
    "host_numbers/src/places.rt": {**{f"ADSC_{name}": name for name in (
        *("A_" + n for n in ("KIND", "WHAT", "DETAIL", "COUNT", "ELEMENTS", "SOUTH", "LATITUDE", "LATITUDE_MINUTES", "LATITUDE_TENTHS", "WEST", "LONGITUDE",
                             "LONGITUDE_MINUTES", "LONGITUDE_TENTHS", "LEVEL", "YEAR", "MONTH", "DAY", "HAS_SECONDS", "HOURS", "MINUTES", "SECONDS", "ACCURACY",
                             "UNITS", "AVOIDANCE", "ADDRESS", "GROUND_PARTS", "TRACK", "GROUND_SPEED", "GROUND_RATE", "AIR_PARTS", "HEADING", "AIR_SPEED", "MACH",
                             "IAS", "AIR_RATE", "WEATHER_PARTS", "WIND_SPEED", "WIND_DIRECTION", "TEMPERATURE", "TURBULENCE")),
        *("G_" + n for n in ("KIND", "WHAT", "SCALE", "INTERVAL", "ADDRESS", "PROFILE", "GROUND_VECTOR", "AIR_VECTOR", "WEATHER", "LATERAL", "RATE", "CEILING", "FLOOR",
                             "AIR_SPEED", "AIR_SPEED_CHANGE", "GROUND_SPEED", "HEADING", "EXTENDED_PROFILE", "EXTENDED_PROFILE_COUNT", "TRACK", "LEVEL")))},
        "ADSC_AIR_NUMBERS": "A_NUMBERS", "ADSC_GROUND_NUMBERS": "G_NUMBERS"},
    "pdu/src/reasons.rt": {f"ADSC_{name}": name for name in (
        "PROVIDER_FAILURE", "INVALID_PDU", "SEQUENCE_ERROR", "TIMER_EXPIRY", "NO_CONTACT", "UNDEFINED_ERROR")},
    "pdu_parts/src/elements.rt": {
        **{f"ADSC_HAS_{name}": name for name in ("ADDRESS", "PROFILE", "GROUND_VECTOR", "AIR_VECTOR", "WEATHER")},
        **{f"ADSC_HAS_{name}": name for name in ("TRACK", "GROUND_SPEED", "GROUND_RATE", "HEADING", "AIR_SPEED", "AIR_RATE", "WIND_SPEED", "WIND_DIRECTION",
                                                 "TEMPERATURE", "TURBULENCE")},
        "ADSC_URGENT_HAS_ADDRESS": "EMERGENCY_ADDRESS", "ADSC_URGENT_HAS_GROUND_VECTOR": "EMERGENCY_GROUND_VECTOR"},
    "pdu_events/src/elements.rt": {f"ADSC_ON_{name}": name for name in (
        "LATERAL_CHANGE", "RATE_CHANGE", "LEVEL_RANGE", "WAYPOINT_CHANGE", "AIR_SPEED_CHANGE", "GROUND_SPEED_CHANGE", "HEADING_CHANGE", "PROFILE_CHANGE",
        "MERIT_CHANGE", "TRACK_CHANGE", "LEVEL_CHANGE")},
    "log_blocks/src/lib.rt": {"ADSC_BLOCK_OCTETS": "BLOCK", "ADSC_PAYLOAD_MOST": "ROOM", "ADSC_KEPT_MOST": "KEPT", "ADSC_BLOCKS_MOST": "BLOCKS"},
    "log_play/src/record.rt": {"ADSC_SETTINGS_OCTETS": "SETTINGS"},
    "host_record/src/record.rt": {"ADSC_LINK_OCTETS": "RECORD"},
    "host_record/src/answer.rt": {"ADSC_ANSWER_OCTETS": "ANSWER"},
    "ground_answer/src/sent.rt": {"ADSC_SENT_MOST": "SENT_MOST"},
    "ground_answer/src/answer.rt": {"ADSC_START_REQUEST": "START_REQUEST", "ADSC_END_REQUEST": "END_REQUEST", "ADSC_LATE": "LATE"},
    "link/src/actions.rt": {
        "ADSC_DATA_REQUEST": "DATA_REQUEST", "ADSC_ABORT_REQUEST": "ABORT_REQUEST", "ADSC_INDICATION": "IND", "ADSC_ABORT_INDICATION": "ABORT_IND",
        "ADSC_PEER_ABORT": "PEER_ABORT_IND", "ADSC_STOP_TIMER": "STOP", "ADSC_START_TIMER": "START"},
    "link/src/moves.rt": {"ADSC_TIMERS": "TIMERS", **{f"ADSC_{module}_IDLE": "IDLE" for module in ("DC", "EC", "PC", "EM")}},
    "ground_tables/src/intervals.rt": {"ADSC_INTERVAL_MOST": "INTERVAL_MOST"},
    "ground_tables/src/names.rt": {
        **{f"ADSC_LI_{state}": f"LI_{state}" for state in ("IDLE", "START", "ACTIVE", "END")},
        **{f"ADSC_{timer}": timer for timer in ("DC1", "DC2", "EC1", "EC2", "PC1", "PC2", "PC3", "EM1", "EM2", "LI1")},
        **{f"ADSC_{module}_{state}": state for module in ("EC", "PC") for state in ("START_PENDING", "PENDING", "ACTIVE", "CANCEL")},
        "ADSC_DC_PENDING": "DC_PENDING", "ADSC_DC_ACTIVE": "DC_ACTIVE", "ADSC_EM_ACTIVE": "EM_ACTIVE", "ADSC_EM_MODIFY": "MODIFY"},
}

# The enum whose cases are the refusals, each with its number: what a PDU is refused with. The constants above are what a call is.
REFUSALS = "refusals/src/lib.rt", "Refusal"

# A kind of call, which counts from 0, and the script word that it is, whose places count from 1.
WORDS = {"bench_line/src/line.rt": {
    "ADSC_CALL_REQUEST": "REQ", "ADSC_CALL_USER_ABORT": "USER_ABORT", "ADSC_CALL_ELAPSE": "ELAPSE", "ADSC_CALL_START_CONFIRM": "START_CNF",
    "ADSC_CALL_START_REJECTED": "START_REJ", "ADSC_CALL_DATA": "DATA", "ADSC_CALL_END_CONFIRM": "END_CNF", "ADSC_CALL_PEER_ABORT": "PEER_ABORT",
    "ADSC_CALL_AIR_ABORT": "AIR_ABORT", "ADSC_CALL_DOWN": "DOWN"}}

# Numbers of refusals that no name has again (02, L5).
RETIRED = (11,)

# The arms of a match on a kind: the number of each variant.
KINDS = {
    "host_numbers/src/uplink.rt": ("Ground", {
        "ADSC_CANCEL_ALL": "CancelAll", "ADSC_CANCEL_CONTRACT": "CancelContract", "ADSC_CANCEL_EMERGENCY_ACK": "CancelEmergencyAck",
        "ADSC_DEMAND_CONTRACT": "DemandContract", "ADSC_EVENT_CONTRACT": "EventContract", "ADSC_MODIFY_EMERGENCY": "ModifyEmergency",
        "ADSC_PERIODIC_CONTRACT": "PeriodicContract", "ADSC_GROUND_ABORT": "Abort"}),
    "host_numbers/src/downlink.rt": ("Air", {
        "ADSC_CANCEL_EMERGENCY": "CancelEmergency", "ADSC_DEMAND_REPORT": "Demand", "ADSC_EMERGENCY_REPORT": "Emergency", "ADSC_EVENT_REPORT": "Event",
        "ADSC_NEGATIVE_ACK": "Negative", "ADSC_NONCOMPLIANCE": "Noncompliance", "ADSC_PERIODIC_REPORT": "Periodic", "ADSC_POSITIVE_ACK": "Positive",
        "ADSC_AIR_ABORT": "Abort"}),
}

# The array that a function ends with: its size, where it is a size of the header, and the place of each entry that has a name.
ARRAYS = [
    ("host_numbers/src/uplink.rt", "flat_periodic", None, {
        "ADSC_G_KIND": "6", "ADSC_G_WHAT": "a.elements", "ADSC_G_SCALE": "scale_of(a.interval)", "ADSC_G_INTERVAL": "times_of(a.interval)", "ADSC_G_ADDRESS": "a.address",
        "ADSC_G_PROFILE": "a.profile", "ADSC_G_GROUND_VECTOR": "a.over_ground", "ADSC_G_AIR_VECTOR": "a.air", "ADSC_G_WEATHER": "a.weather"}),
    ("host_numbers/src/changes.rt", "flat_changes", "ADSC_GROUND_NUMBERS", {
        "ADSC_G_WHAT": "a.elements", "ADSC_G_LATERAL": "a.lateral", "ADSC_G_RATE": "complement(a.rate)", "ADSC_G_CEILING": "complement(a.range.ceiling)", "ADSC_G_FLOOR": "complement(a.range.floor)",
        "ADSC_G_AIR_SPEED": "a.air.kind", "ADSC_G_AIR_SPEED_CHANGE": "a.air.number", "ADSC_G_GROUND_SPEED": "a.over_ground", "ADSC_G_HEADING": "a.heading",
        "ADSC_G_EXTENDED_PROFILE": "a.profile.kind", "ADSC_G_EXTENDED_PROFILE_COUNT": "a.profile.number", "ADSC_G_TRACK": "a.track", "ADSC_G_LEVEL": "a.level"}),
    ("host_numbers/src/reports.rt", "fix_numbers", None, {
        "ADSC_A_KIND": "kind", "ADSC_A_WHAT": "bit(ack)", "ADSC_A_DETAIL": "event", "ADSC_A_ELEMENTS": "elements", "ADSC_A_SOUTH": "bit(la.minus)",
        "ADSC_A_LATITUDE": "la.degrees", "ADSC_A_LATITUDE_MINUTES": "la.minutes", "ADSC_A_LATITUDE_TENTHS": "la.tenths", "ADSC_A_WEST": "bit(lo.minus)",
        "ADSC_A_LONGITUDE": "lo.degrees", "ADSC_A_LONGITUDE_MINUTES": "lo.minutes", "ADSC_A_LONGITUDE_TENTHS": "lo.tenths", "ADSC_A_LEVEL": "complement(x.position.level)",
        "ADSC_A_YEAR": "t.year", "ADSC_A_MONTH": "t.month", "ADSC_A_DAY": "t.day", "ADSC_A_HAS_SECONDS": "bit(t.has_seconds)", "ADSC_A_HOURS": "t.hours",
        "ADSC_A_MINUTES": "t.minutes", "ADSC_A_SECONDS": "t.seconds", "ADSC_A_ACCURACY": "m.accuracy", "ADSC_A_UNITS": "bit(m.units)",
        "ADSC_A_AVOIDANCE": "bit(m.avoidance)", "ADSC_A_ADDRESS": "address"}),
]

# Numbers that stand in the text of a function or a type.
TEXTS = {
    "host_record/src/record.rt": {
        "ADSC_LINK_SETTINGS": r"put_words\(out, (\d+), l\.setting\)", "ADSC_LINK_LEFT": r"put_words\(out, (\d+), l\.left\)",
        "ADSC_LINK_DC": r"out\[(\d+)\.\.\d+\]\.copy_from_slice\(&at\)", **{f"ADSC_LINK_{module}": r"let at = \[" + r"s\[\d+\], " * n + r"s\[(\d+)\]"
        for n, module in ((1, "EC"), (2, "PC"), (3, "EM"), (4, "LI"))},
        "ADSC_LINK_ASKED": r"\basked: word_in\(s, (\d+)\)", "ADSC_LINK_FORCE": r"\bforce: word_in\(s, (\d+)\)"},
    "host_record/src/answer.rt": {
        "ADSC_ANSWER_REASON": r"f\[(\d*)\.\.\d+\]\.copy_from_slice\(&octets_of\(s\.reason\)\)", "ADSC_ANSWER_ACTIONS": r"f\[(\d+)\] = count\(s\.acts\.n",
        "ADSC_ANSWER_SENT": r"f\[(\d+)\] = count\(s\.sent\.n"},
    "link/src/watch.rt": {"ADSC_SECONDS_MOST": r"x <= (\d+)"},
    "host_numbers/src/copy.rt": {"ADSC_LIST_OCTETS": r"fn items_of\(.*\) -> \[u8; (\d+)\]"},
}


def crate(path):
    return (ROOT / "crates" / path).read_text()


# What is exported

def lowered(name, kind):
    """A parameter of Rattle as C has it: types with their names."""
    slice, lent = SLICE.fullmatch(kind), LENT.fullmatch(kind)
    if slice:
        return [f"{'' if slice[1] else 'const '}{WIDTHS[slice[2]]} *{name}", f"size_t {name}_length"]
    if lent:
        return [f"{'' if lent[1] else 'const '}{WIDTHS[lent[2]]} *{name}"]
    return [f"{WIDTHS[kind]} {name}"]


def exported():
    """Each exported function as its C declaration: the result and the parameters."""
    found = {}
    for path in sorted(EXPORTS.glob("*.rt")):
        text = path.read_text()
        functions = re.findall(r'#\[unsafe\(no_mangle\)\]\s*pub extern "C" fn (\w+)\(([^)]*)\)\s*->\s*(\w+)', text)
        if len(functions) != text.count("no_mangle"):
            sys.exit(f"{path.relative_to(ROOT)}: an exported function that is not understood here")
        for name, inside, result in functions:
            parts = [part.strip().split(": ") for part in inside.split(",") if part.strip()]
            found[name] = (WIDTHS[result], [c for part in parts for c in lowered(*part)])
    return found


def numbers_due():
    """Each number of the header that is compared, with its value and where that is from."""
    due = []
    for path, names in CONSTANTS.items():
        values = dict(re.findall(r"pub(?:\(crate\))? const (\w+): \w+ = (\d+);", crate(path)))
        due += [(name, int(values[const]), f"{path}, {const}") for name, const in names.items()]
    path, enum = REFUSALS
    cases = re.findall(r"^    (\w+) = (\d+),$", crate(path).split(f"pub enum {enum} {{", 1)[1].split("\n}\n", 1)[0], flags=re.M)
    due += [("ADSC" + re.sub("(?=[A-Z])", "_", case).upper(), int(n), f"{path}, {enum}::{case}") for case, n in cases]
    for path, names in WORDS.items():
        values = dict(re.findall(r"const (\w+): usize = (\d+);", crate(path)))
        due += [(name, int(values[const]) - 1, f"{path}, {const}") for name, const in names.items()]
    for path, (enum, names) in KINDS.items():
        values = {variant: int(n) for n, variant in re.findall(rf"(\d+) => {enum}::(\w+)", crate(path))}
        due += [(name, values[variant], f"{path}, {enum}::{variant}") for name, variant in names.items()]
    for path, function, size, names in ARRAYS:
        body = crate(path).split(f"fn {function}(", 1)[1].split("\n}\n", 1)[0]
        entries = ["".join(entry.split()) for entry in body.rsplit("[\n", 1)[1].rsplit("]", 1)[0].split(",") if entry.strip()]
        due += [(name, entries.index(entry), f"{path}, {function}") for name, entry in names.items()]
        due += [(size, len(entries), f"{path}, {function}")] if size else []
    for path, names in TEXTS.items():
        due += [(name, int(re.search(text, crate(path))[1] or 0), path) for name, text in names.items()]
    return due


# What the header says

def bare(text):
    """Without comments, and with one space where there are more."""
    text = re.sub(r"/\*.*?\*/", " ", text, flags=re.S)
    return re.sub(r"[ \t]+", " ", text)


def declared(text):
    found = {}
    for result, name, inside in re.findall(r"^(\w[\w *]*?) ?\b(adsc_\w+)\(([^)]*)\);", bare(text), flags=re.M):
        found[name] = (result, [" ".join(part.split()) for part in inside.split(",")])
    return found


def numbers(text):
    text = bare(text)
    return {name: int(value) for name, value in re.findall(r"#define (ADSC_\w+) (\d+)", text) + re.findall(r"\b(ADSC_\w+) = (\d+)", text)}


def problems(text, functions, due):
    """What the header says otherwise."""
    have, values = declared(text), numbers(text)
    found = [f"{name}: not exported" for name in have if name not in functions]
    for name, (result, parameters) in functions.items():
        if name not in have:
            found.append(f"{name}: not declared")
        elif have[name] != (result, parameters):
            found.append(f"{name}: expected: {result} ({', '.join(parameters)}): the header has: {have[name][0]} ({', '.join(have[name][1])})")
    refusals = numbers(re.search(r"enum adsc_refusal \{.*?\n\};", text, flags=re.S)[0])
    found += [f"{name}: {value} is retired" for name, value in refusals.items() if value in RETIRED]
    for name, value, place in due:
        if values.get(name) != value:
            found.append(f"{name}: {value} in {place}: the header has: {values.get(name)}")
    return found


# A test of the test

def spoilt(part):
    """A parameter altered in each way that a compiler does not mind."""
    yield "", "left out"
    yield part.replace("const ", "") if "const " in part else f"const {part}", "const"
    for was, to in (("uint8_t", "uint32_t"), ("uint32_t", "uint8_t"), ("uint32_t", "uint64_t"), ("size_t", "uint32_t")):
        if was in part:
            yield part.replace(was, to), to
    yield part.replace("*", "") if "*" in part else re.sub(r"(\w+)$", r"*\1", part), "pointer"


def altered_lines(line):
    """A declaration with one part altered, or two neighbours of it exchanged."""
    head, inside = line.split("(", 1)
    parts = inside.rsplit(");", 1)[0].split(", ")
    join = lambda parts: f"{head}({', '.join(part for part in parts if part)});"
    yield line.replace("adsc_", "adcs_", 1), "name"
    yield line.replace("uint8_t ", "int ", 1), "result"
    yield "", "whole"
    for i, part in enumerate(parts):
        for new, what in spoilt(part):
            yield join([*parts[:i], new, *parts[i + 1:]]), f"{part}: {what}"
    for step in (1, 2):
        for i in range(len(parts) - step):
            swapped = list(parts)
            swapped[i], swapped[i + step] = parts[i + step], parts[i]
            yield join(swapped), f"{parts[i]} and {parts[i + step]}"


def alterations(text, due):
    for line in re.findall(r"^uint8_t adsc_.*;$", text, flags=re.M):
        for new, what in altered_lines(line):
            yield text.replace(line, new), f"{line[:40]}.. {what}"
    for name, value, _ in due:
        new = re.sub(rf"(\b{name}\b( = | )){value}\b", rf"\g<1>{value + 1}", text)
        yield new, f"{name} {value + 1}"
        yield text.replace(name, name + "X"), f"{name} renamed"
    for number in RETIRED:
        yield text.replace("    ADSC_BAD_RECORD", f"    ADSC_AGAIN = {number},\n    ADSC_BAD_RECORD"), f"{number} used again"
    yield text.replace("uint8_t adsc_down(", "uint8_t adsc_more(uint8_t *link, size_t link_length);\nuint8_t adsc_down("), "one more"


def self_test(text, functions, due):
    missed, count = 0, 0
    for altered, what in alterations(text, due):
        count += 1
        if altered == text or not problems(altered, functions, due):
            print(f"not found: {what}")
            missed += 1
    print(f"header alterations {count}, not found {missed}")
    return missed == 0


def main():
    text, functions, due = HEADER.read_text(), exported(), numbers_due()
    found = problems(text, functions, due)
    for problem in found:
        print(problem)
    print(f"header functions {len(functions)}, numbers {len(due)}, problems {len(found)}")
    good = not found
    if sys.argv[1:] == ["--self-test"]:
        good = self_test(text, functions, due) and good
    return good


if sys.argv[1:] not in ([], ["--self-test"]):
    sys.exit(__doc__)
sys.exit(0 if main() else 1)
