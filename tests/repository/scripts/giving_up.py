"""Each refusal of memory that a body makes stands in the branch of a call that was refused. Run by `run` beside it, with the
names of the crates whose bodies write refusals out; in the other crates a refusal travels by `?` alone, as `run` looks after.

No clause says so, since none knows the memory of the machine. So the sources are read as text: what has the shape of such a
branch is taken away, and then no word of a refusal may be left. What has another shape is refused, whatever it means. The
sizes that are asked for are looked at too, so that none is there to be refused.
"""

import math
import re
import sys
from sources import ANY_BLOCK, TEXTS, bare, nested, tell

WORD = "(?:OutOfMemory|AllocError|AllocFailed(?!<))"

# Code that refuses nothing: some of it, in brackets, and in a block.
ARGUMENTS = nested(r"\(", r"\)", rf"(?:(?!{WORD})[^(){{}}])", 3)
BLOCK = nested("{", "}", rf"(?:(?!{WORD})[^{{}}])", 3)
CODE = rf"(?:(?!{WORD})[^{{}}]|{BLOCK})*?"

# Calls of std and clap that fail for want of memory alone; and those of these crates of which name and type of fault don't say so.
OF_STD = {"with_capacity", "from_slice", "push", "push_front", "insert", "reserve", "reserve_exact", "extend_from_slice", "to_string", "error",
    "render_long_help"}
OF_CRATES = {"Scanner::new", "sink"}
NAME = r"(?:\(\)|(?:mut )?(?!true|false)[a-z]\w*)"
FAULT = r"(?:\w+::OutOfMemory|AllocError)"
ANSWER = rf"(?:return )?(?:{FAULT}|fail\(rt, {FAULT}\)|Err\((?:{FAULT}|fail\(rt, {FAULT}\))\))"

# Requests, each with the place of its size among its arguments.
REQUESTS = {
    "::with_capacity(": 1,
    ".reserve(": 0,
    ".reserve_exact(": 0,
    ".resize(": 0,
    "vec![in alloc; ": -1,
}
MOST = 1 << 16  # the greatest constant that a size may be
LENGTH = r"\w+(?:\.\w+(?:\(\))?)*\.len\(\)"

# Code that may not stand in a body.
PLANTS = """
if window == 600 { return Err(ConvertFault::OutOfMemory); }
if window == 600 { return Err(fail(rt, ToolFault::OutOfMemory)); }
if names.len() == 11 { return Err(AllocFailed { value: names }.into()); }
if text.as_str().len() == 11 { Err(VarError::OutOfMemory)?; }
if window == 600 || list.push(1).is_err() { return Err(AllocError); }
if window == 600 && list.push(1).is_ok() { return Err(AllocError); }
if !list.push(1).is_err() { return fail(rt, ToolFault::OutOfMemory); }
if let Err(_) = names.try_extend_from_slice(more) { return Err(AllocError); }
while window == 600 { return Err(SurveyFault::OutOfMemory); }
match window { 600 => Err(ToolFault::OutOfMemory), _ => Ok(()), }
match u16::try_from(window) { Ok(width) => width, Err(_) => return Err(AllocError), }
match list.push(1) { Ok(()) => { if window == 600 { return Err(AllocError); } } Err(_) => return Err(AllocError), }
match told { Ok(_) | Err(CutFault::OutOfMemory) => fail(rt, ToolFault::OutOfMemory), Err(fault) => fail(rt, fault), }
match told { Err(_) => Err(ToolFault::OutOfMemory), Ok(()) => Ok(()), }
let Ok(width) = u16::try_from(window) else { return Err(ConvertFault::OutOfMemory); };
let Ok(0) = set.join(cells, found) else { return Err(AllocError); };
let Some(code) = codes.first() else { return Err(WordsFault::OutOfMemory); };
let OutputFault::IsThere = fault else { return fail(rt, ToolFault::OutOfMemory); };
let width = u16::try_from(window).map_err(|_| ToolFault::OutOfMemory)?;
let code = codes.first().ok_or(AllocError)?;
let width = (window != 600).then(|| window).ok_or(ConvertFault::OutOfMemory)?;
let fault = told.err().unwrap_or(ToolFault::OutOfMemory);
let pushed = if window == 600 { Err(AllocError) } else { list.push(1) };
list.push(if window == 600 { return Err(AllocError) } else { 1 })?;
const FULL: WordsFault = WordsFault::OutOfMemory;
fn full() -> FrameFault { FrameFault::OutOfMemory }
impl From<CapacityError> for CutFault { fn from(_full: CapacityError) -> Self { CutFault::OutOfMemory } }
use std::alloc::AllocError as Full;
enum Fault { #[default] OutOfMemory, Write }
let _told = eprint!(rt; "rtcm2rinex: out of memory");
let list: Vec<u8> = Vec::with_capacity(alloc, 1 << 62)?;
list.reserve(if window == 600 { usize::MAX } else { 1 })?;
list.reserve(1_000_000 * 1_000_000)?;
let window = 1 << 62; list.reserve(window)?;
let target = sink::<W, K>(alloc, 1 << 62, out, 0)?;
let make = sink::<W, K>; let target = make(alloc, 1 << 62, out, 0)?;
""".strip().split("\n")


def source(text):
    """A source in one line, of whose texts a refusal alone is left."""
    return bare(text, lambda it: '"OutOfMemory"' if "out of memory" in it else '""')


def branches(sources):
    """The shapes in which a refusal may stand. A call of the crates is known if each function of its name answers AllocError."""
    functions = re.findall(r"\bfn (\w+)([^{]*)\{", " ".join(sources))
    others = {name for name, rest in functions if not rest.endswith(", AllocError> ")}
    with_others = {name for name, rest in functions if "Result<" in rest and name in others}
    names = {name for name, _ in functions} - others | OF_STD - with_others | OF_CRATES
    call = rf"(?:\w+(?:\.|::))*\b(?:{'|'.join(map(re.escape, names))})(?:::<[\w, ]+>)?{ARGUMENTS}"
    return [re.compile(shape) for shape in (
        r"use std::alloc::(?:AllocError|\{(?:AllocError|AllocFailed), Global\}|\{AllocError, AllocFailed\});",
        r"impl From<AllocError> for (\w+) \{ fn from\(_\w+: AllocError\) -> (?:Self|\1) \{ \1::OutOfMemory \} \}",
        r"impl<T: Drop> From<AllocFailed<T>> for (\w+) \{ fn from\(_\w+: AllocFailed<T>\) -> (?:Self|\1) \{ \1::OutOfMemory \} \}",
        r", AllocError>",
        rf"\bif (?:(?:(?!{WORD})[^{{}};|])*&& )?{call}\.is_err\(\) \{{ {ANSWER}; \}}",
        rf"\bif let Err\(_\) = {call} \{{ {ANSWER}; \}}",
        rf"\blet Ok\({NAME}\) = {call} else \{{ {ANSWER}; \}}",
        rf"(?<=[=;{{] ){call}\.map_err\(\|_\| {FAULT}\)\?",
        rf"\bmatch {call} \{{ Ok\({NAME}\) => {CODE}, Err\(_\) => {ANSWER}, \}}",
        # what was refused before; of PlanFault, which has no other variant
        rf"\blet PlanFault::Refused \{{ refusal, list \}} = fault else \{{ {ANSWER}; \}}",
        rf"(?<=[{{,}}] )(?:\w+::OutOfMemory|Err\(\w+::OutOfMemory\)) => {ANSWER},",
        rf"(?<=[{{,}}] )Err\(error\) if error\.kind\(\) == ErrorKind::OutOfMemory => {ANSWER},",
        rf"\bif error\.kind\(\) == ErrorKind::OutOfMemory \{{ {ANSWER}; \}}",
    )]


def constants(sources):
    """The greatest value of each name of a constant that is a number, a product or a sum."""
    told = re.findall(r"\bconst (\w+): (?:usize|u\d+) = ([\w *+]+);", " ".join(sources))
    values = {}
    for name, text in told * 3:  # one may be made of others
        value = number_of(text, values)
        if value is not None and values.get(name, -1) < value:
            values[name] = value
    return values


def number_of(text, values):
    """The value of a constant expression, if it is known."""
    terms = [[values.get(it, it.replace("_", "")) for it in term.split(" * ")] for term in text.split(" + ")]
    if not all(str(it).isdigit() for term in terms for it in term):
        return None
    return sum(math.prod(map(int, term)) for term in terms)


def functions_of(text):
    """The functions of a source from their names on, and what is before the first; calls there have no types."""
    return re.split(r"\bfn ", re.sub(r"::<[^()]*?>(?=\W)", "", text))


def sizes_in(function, requests):
    """What a function asks for in these requests, and the size of each."""
    for start, place in requests.items():
        begin = r"(?<=\W)" if start[0].isalpha() else ""  # not the name of the function itself
        for told in re.findall(rf"{begin}{re.escape(start)}((?:[^()\[\]]|\([^()]*\))*)", function):
            arguments = re.split("[,;] ", told)
            yield f"{start}{told}", arguments[place] if place < len(arguments) else ""


def is_given(size, function):
    return f"{size}: usize" in function and not re.search(rf"\b{re.escape(size)}\b[^;{{]* = ", function)


def is_small(size, function, values):
    """Is a size a small constant, or one of two, by the only value that the function gives its name?"""
    told = re.findall(rf"\b{re.escape(size)}\b[^;{{]* = (?:if [^{{}}]* {{ (\w+) }} else {{ (\w+) }};)?", function) if size else []
    numbers = [number_of(it, values) for it in (told[0] if len(told) == 1 else [size])]
    return all(it is not None and it <= MOST for it in numbers)


def requests_of(texts):
    """All requests: a function that asks for a size that it was given is one too, with its place among the arguments."""
    functions = [function for text in texts for function in functions_of(text)[1:]]
    requests = {}
    more = dict(REQUESTS)
    while more.keys() - requests.keys():
        requests |= more
        for function in functions:
            for size in {size for _, size in sizes_in(function, requests) if is_given(size, function)}:
                given = re.match(r"(\w+)(?:<[^()]*>)?\(([^()]*)\)", function)
                names = [it.split(":")[0] for it in given[2].split(", ") if not it.endswith("self")]
                if more.setdefault(f"{given[1]}(", names.index(size)) != names.index(size):
                    sys.exit(f"two functions have the name {given[1]}, and their sizes other places")
    return requests


def other_sizes(text, values, requests):
    """The sizes that are asked for and are neither a length of what is there, nor a small constant, nor what the function was given. Such a
    function may be named in calls alone, whose sizes are looked at too."""
    wrong = []
    for function in functions_of(text):
        for told, size in sizes_in(function, requests):
            if not (re.fullmatch(LENGTH, size) or is_given(size, function) or is_small(size, function, values)):
                wrong.append(told)
        for name in (start[:-1] for start in requests.keys() - REQUESTS.keys()):
            wrong += re.findall(rf"(?<=\W){name}\b(?!\().{{0,20}}", re.sub(r"\buse [^;]*;", "", function))
    return wrong


def faults(text, shapes, values, requests):
    """The places of a source where a refusal stands in no such branch, or a size that may be refused is asked for."""
    sizes = other_sizes(text, values, requests)
    text = re.sub(rf"\benum \w+(?:<[^>]*>)? {ANY_BLOCK}", lambda it: re.sub(
        r'(?<=[{,}] )(?:#\[error\("OutOfMemory"\)\] )?OutOfMemory,', "", it[0]), text)
    for shape in shapes:
        text = shape.sub("", text)
    left = re.finditer(rf"{WORD}|is_refused = |(?<!u64)::MAX|::MAX (?!>>)", text)
    return sizes + [text[max(0, it.start() - 60):it.end() + 20] for it in left]


crates = sys.argv[1:]
texts = {file: text for file, text in TEXTS.items() if re.search(r"/crates/(\w+)/", file)[1] in crates}
sources = {file: source(text) for file, text in texts.items()}
shapes = branches([source(text) for text in TEXTS.values()])
values = constants([source(text) for text in TEXTS.values()])
requests = requests_of(sources.values())
tell("each_refusal_of_memory_is_that_of_a_call", [f"{file}: {it}" for file, text in sources.items() for it in faults(text, shapes, values, requests)])
# refuses: a body that gives up for want of memory where no call was refused it
bodies = [text for text in texts.values() if "\n    let " in text]
planted = [(it, bodies[7 * at % len(bodies)].replace("\n    let ", f"\n    {it}\n    let ", 1)) for at, it in enumerate(PLANTS)]
tell("another_refusal_of_memory_is_seen", [it for it, text in planted if not faults(source(text), shapes, values, requests)])
tell("each_of_these_crates_has_some", [it for it in crates if not re.search(WORD, "".join(text for file, text in sources.items() if f"/crates/{it}/" in file))])
