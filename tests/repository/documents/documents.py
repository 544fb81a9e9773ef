"""What the documents say, compared with the sources and with the help of the program. Run by `run` beside it.

The commands and options are those that the help prints; none stands here, so a new command needs no change of this file.
"""

import os
import re
import shutil
import subprocess
import sys
import tempfile
from pathlib import Path

import commands

ROOT = Path(sys.argv[1]).resolve()
PROGRAM = Path(sys.argv[2]).resolve()
COMPLETE = ROOT / "tests/repository/documents/complete.bash"

passed = failed = 0


def compare(name, got, want):
    """The two must be equal; a failure tells both."""
    global passed, failed
    if got == want:
        passed += 1
        print(f"ok {name}")
    else:
        failed += 1
        print(f"FAILED {name}: {got}, and not {want}")


def all_are(name, things, is_good):
    """Each of the things is good, and there are such things."""
    compare(name, [it for it in things if not is_good(it)] if things else "none is found", [])


def output(*words):
    ran = subprocess.run([str(word) for word in words], stdin=subprocess.DEVNULL, capture_output=True, text=True)
    return ran.returncode, ran.stdout, ran.stderr


def section(text, heading):
    """The first words of the entries below a heading of the help."""
    found = re.search(rf"(?ms)^{heading}:\n(.*?)(?=^\S|\Z)", text)
    return re.findall(r"(?m)^ {2,6}((?:-\w, )?[\w<-][\w.<>-]*)", found.group(1)) if found else []


def help_of(*words):
    return output(PROGRAM, *words, "-h")[1]


def statuses_of_help(*words):
    """The entries that are numbers; a line that goes on begins with another word."""
    return [it for it in section(output(PROGRAM, *words, "--help")[1], "Exit status") if it.isdigit()]


def options_of_help(*words):
    """Its options, long and short, but for those of help and version, which all commands have."""
    typed = [option for entry in section(help_of(*words), "Options") for option in entry.split(", ")]
    return {option for option in typed if option not in ("-h", "--help", "-V", "--version")}


COMMANDS = section(help_of(), "Commands")
WORKING = [command for command in COMMANDS if command != "help"]
OPTIONS = {command: options_of_help(command) for command in WORKING}


def forms(text):
    """The commands that a text shows, each with its options: lines and code that begin with the program's name."""
    found = {}
    for command, words in re.findall(r"(?m)(?:^ *|`)rtcm2rinex ([a-z]+)\b([^`\n]*)", text):
        if command != "help":
            found.setdefault(command, set()).update(re.findall(r"--?[a-z][\w-]*", words))
    return found


def plain(roff):
    """The text of a page of roff without its signs and its comment."""
    roff = re.sub(r'(?m)^\.\\".*\n', "", roff)
    for sign, text in ((r"\fB", ""), (r"\fI", ""), (r"\fR", ""), (r"\-", "-"), (r"\~", " "), (r"\&", ""), (r"\(ha", "^")):
        roff = roff.replace(sign, text)
    return roff


MANUAL = (ROOT / "docs/MANUAL.md").read_text()
ROFF = (ROOT / "docs/rtcm2rinex.1").read_text()
PAGE = plain(ROFF)


def test_manuals():
    compare("the manual shows the commands and options of the help", forms(MANUAL), OPTIONS)
    # A line of text may begin with the program's name too, so only what is a command counts.
    shown = {command: options for command, options in forms(PAGE).items() if command in WORKING}
    compare("the manual page shows the commands and options of the help", shown, OPTIONS)
    every = {option for option in set().union(*OPTIONS.values()) if option.startswith("--")} | {"--help", "--version"}
    for name, text in (("manual", MANUAL), ("manual page", PAGE)):
        compare(f"the {name} names the options of the help and no others", set(re.findall(r"(?<![\w-])--[a-z][\w-]*", text)), every)
    statuses = re.findall(r"(?m)^\| (\d+) \|", MANUAL)
    compare("the manual page has the statuses of the manual", re.findall(r"(?m)^\.TP\n(\d+)$", PAGE), statuses)
    compare("no line of the manual page is broken", re.findall(r"(?m).*\\$", ROFF), [])
    compare("the statuses are told", statuses[:3], ["0", "1", "2"])
    compare("the help has the statuses of the manual", statuses_of_help(), statuses)
    each = {command: statuses_of_help(command) for command in WORKING}
    all_are("the help of each command has statuses of the manual", WORKING, lambda it: set("012") <= set(each[it]) <= set(statuses))
    several = [command for command in WORKING if "3" in each[command]]
    told = re.search(r"(?m)^\| 3 \|(.*)\|$", MANUAL).group(1)
    compare("the manual names the commands that have status 3", list(dict.fromkeys(re.findall(r"`([a-z]+)`", told))), several)


def of_zsh():
    text = (ROOT / "completions/_rtcm2rinex").read_text()
    cases = re.findall(r"(?ms)^ {16}([\w-]+)\)\n(.*?);;", text)
    found = {command: set(re.findall(r"['{,](--?[\w-]+)(?=[\[,}])", told)) for command, told in cases}
    return found, re.findall(r"(?m)^ {8}'([\w-]+):", text)


def of_fish():
    text = (ROOT / "completions/rtcm2rinex.fish").read_text()
    found = {command: set() for command in re.findall(r"__fish_use_subcommand -a ([\w-]+) ", text)}
    for command, words in re.findall(r"'__fish_seen_subcommand_from ([\w-]+)'(.*)", text):
        found[command] |= {"-" * (1 + (sign == "l")) + name for sign, name in re.findall(r" -([ls]) ([\w-]+)", words.split(" -d ")[0])}
    return found


def test_completions():
    (zsh, named), fish = of_zsh(), of_fish()
    common = {"-h", "--help", "-V", "--version"}
    compare("zsh completes the commands", named, COMMANDS)
    compare("zsh completes the options", {c: zsh[c] - common for c in WORKING}, OPTIONS)
    compare("fish completes the commands", list(fish), COMMANDS)
    compare("fish completes the options", {c: fish[c] - common for c in WORKING}, OPTIONS)


def completed(*words):
    """What bash completes where the last of these words is typed."""
    code, out, error = output("bash", COMPLETE, ROOT / "completions/rtcm2rinex.bash", "rtcm2rinex", *words)
    return sorted(out.split("\n")[:-1]) if code == 0 else error


def test_bash():
    os.chdir(ROOT / "examples")
    files = sorted(str(path) for path in Path(".").glob("base*"))
    long = {c: sorted({"--help"} | {o for o in OPTIONS[c] if o.startswith("--")}) for c in WORKING}
    all_are("a run of bash gives the commands", COMMANDS, lambda it: it in completed(""))
    compare("a run of bash gives the options", {c: completed(c, "--") for c in WORKING}, long)
    compare("a run of bash gives files", {c: completed(c, "base") or "none" for c in WORKING}, {c: files for c in WORKING})
    compare("a run of bash gives standard input", {c: completed(c, "std") for c in WORKING},
        {c: [] if "<CAPTURE>..." in section(help_of(c), "Arguments") else ["stdin"] for c in WORKING})
    compare("a run of bash gives an option once", {c: completed(c, "--help", "--") for c in WORKING},
        {c: [option for option in long[c] if option != "--help"] for c in WORKING})
    compare("a run of bash gives files alone after --", completed(WORKING[0], "--", "-"), [])
    compare("a run of bash gives commands after help", completed("help", ""), sorted(WORKING))
    compare("a run of bash gives nothing after a word that is no command", completed("nothing", "--"), [])


def test_made():
    for script in ("manpage", "completions"):
        code, _, error = output(ROOT / "bin" / script, "--check", *([PROGRAM] if script == "completions" else []))
        compare(f"bin/{script} makes what is there", (code, error), (0, ""))


def copied(folder):
    """What bin/index and bin/evidence read, in a folder of its own."""
    for pattern in ("bin/*", "crates.txt", "crates/*/src", "crates/*/specs", "crates/*/must-fail", "tests"):
        for path in ROOT.glob(pattern):
            copy = folder / path.relative_to(ROOT)
            copy.parent.mkdir(parents=True, exist_ok=True)
            if path.is_dir():
                shutil.copytree(path, copy, ignore=shutil.ignore_patterns("__pycache__"))
            elif path.is_file():
                shutil.copy(path, copy)


def test_index(copy):
    compare("bin/index makes the index", output(copy / "bin/index"), (0, "", ""))
    index = (copy / "out/INDEX.md").read_text()
    compare("the index has public calls", "#### `" in index, True)
    edits = sum(len(list(ROOT.glob(pattern))) for pattern in ("crates/*/must-fail/*.edit", "tests/outside/edits.d/*/*.edit"))
    compare("the index has each must-fail edit", (len(re.findall(r"(?m)^- refused: ", index)), edits > 0), (edits, True))


def test_evidence(copy):
    script, tests = copy / "bin/evidence", next(copy.glob("tests/**/checksums.rt.in"))
    code, _, error = output(script)
    compare("each constant, table and formula has a pin", (code, error), (0, ""))
    # a mark is the first line of a comment
    marks = sum(len(re.findall(r"(?m)^(?!--|//).*\n(?:--|//) (?:constant|table|formula)$", path.read_text()))
        for pattern in ("crates/*/specs/**/*.antt", "crates/*/src/**/*.rt") for path in copy.glob(pattern))
    rows = len(re.findall(r"(?m)^\| \[", (copy / "out/PINS.md").read_text()))
    compare("bin/evidence has a row for each of them", (rows, marks > 0), (marks, True))
    bodies = (copy / "out/REFUSED.md").read_text().count("\n| ") - 1
    compare("bin/evidence has the wrong bodies", bodies > 0, True)
    row = output(script, "generator")
    compare("bin/evidence prints the pins of a definition", (row[0], row[1].split(",")[0], "known_checksums" in row[1]), (0, "constant generator", True))
    for name, change, told in (
        ("a constant without a pin", lambda text: text.replace(", generator", ""), "constant generator has no pin"),
        ("a pin of nothing", lambda text: text.replace(", generator", ", nothing, generator"), "nothing is the name of 0 definitions"),
        ("a line above no test", lambda text: text.rstrip() + "\n\n// refuses: nothing\n", "stands above no test")):
        text = tests.read_text()
        tests.write_text(change(text))
        code, _, error = output(script)
        tests.write_text(text)
        compare(f"bin/evidence sees {name}", (code, told in error), (1, True))


def names_of_definitions():
    found = set()
    for path in ROOT.glob("crates/*/specs/**/*.antt"):
        found |= set(re.findall(r"(?m)^(?:abbrev |unfoldable |pub |record |data )+(\w+)", path.read_text()))
    return found


def test_proof():
    """Each definition and each file that the list "What to read" of PROOF.md names is there."""
    proof = (ROOT / "docs/PROOF.md").read_text()
    rows = [line.split("|") for line in proof[proof.index("| | Definition |"):].split("\n")[2:]]
    rows = rows[:next(at for at, cells in enumerate(rows) if len(cells) != 6)]
    definitions, files = names_of_definitions(), {path.name for path in ROOT.glob("crates/*/specs/**/*.antt")}
    named = [name for cells in rows for name in re.findall(r"`(\w+)`", cells[2])]
    all_are("the definitions that PROOF.md says to read are there", named, lambda it: it in definitions)
    named = [name for cells in rows for name in re.findall(r"`(?:[\w/]+/)?(\w+\.antt)`", cells[3])]
    all_are("the files that PROOF.md says to read are there", named, lambda it: it in files)


def read_specs():
    """Of each file of specs its definitions as they are written, and where each name that it imports from specs is defined."""
    texts, imports = {}, {}
    for path in sorted(ROOT.glob("crates/*/specs/**/*.antt")):
        file, name = str(path.relative_to(ROOT)), None
        for line in path.read_text().split("\n"):
            found = re.match(r"(?:abbrev |unfoldable )?pub (?:record |data )?(\w+)", line)
            if found and found.group(1) != "mod":
                name = found.group(1)
                texts[file, name] = line
            elif re.match(r"use |--|pub mod |$", line):
                name = None
            elif name:
                texts[file, name] += "\n" + line
        for crate, module, names in re.findall(r"(?m)^use Rattle\.(rtk_\w+)\.specs\.((?!declared)[\w.]+)\.\{(.*)\}", path.read_text()):
            for word in names.split(", "):
                imports[file, word.split(" as ")[-1]] = f"crates/{crate}/specs/{module.replace('.', '/')}.antt", word.split(" as ")[0]
    return texts, imports


def believed(kind, *words):
    """What bin/believe lists, as files and names, and its four sums; what it says if it refuses."""
    code, out, error = output(ROOT / "bin/believe", f"--{kind}", *words)
    lines = out.split("\n")[:-1]
    sums = [tuple(map(int, re.findall(r"\d+(?= definitions| lines)", line))) for line in lines[-4:]]
    return ({(line.split(":")[0], line.split(" ")[-1]) for line in lines[:-4]}, sums) if code == 0 else (error, [])


def test_sources():
    """The sums of bin/believe, by the lines that name a standard as the source of definitions."""
    for words in ("run", "headline"), ("run",):
        (every, sums), (own, same) = believed("list", *words), believed("own", *words)
        restated, chosen, ours, whole = sums
        compare(f"bin/believe {' '.join(words)} has two sums, which add up", (restated[0] + ours[0], restated[1] + ours[1], same), (*whole, sums))
        compare(f"bin/believe --own {' '.join(words)} lists what restates no standard or makes a choice", (len(own), own <= every), (ours[0] + chosen[0], True))
    restated, _, ours, _ = believed("own", "run", "headline")[1]
    compare("most of the promise restates a standard, by definitions and by lines", (ours[0] < restated[0], ours[1] < restated[1]), (True, True))
    names = {name for _, name in own}
    compare("the generator restates a standard, and the code of a signal does not", ("generator" in names, "code_of_signal" in names), (False, True))
    marks = [line for path in ROOT.glob("crates/*/specs/**/*.antt") for line in re.findall(r"(?m)^-- Source:.*", path.read_text())]
    all_are("each source names a standard and a place in it", marks, lambda it: re.match(r"-- Source: (RTCM 10403\.3|RINEX 3\.05|IERS|ICD GLONASS), \S", it))


def test_believe():
    texts, imports = read_specs()
    listed = believed("list", "run", "headline")[0]
    reached = {(file, name) for file, name in listed if (file, name) in texts}
    missing = set()
    for file, name in reached:
        for word in set(re.findall(r"(?<![\w.])[^\W\d]\w*", re.sub(r"--.*", "", texts[file, name]))) - {name}:
            place = imports.get((file, word)) or (file, word)
            if place in texts and place not in listed:
                missing.add((name, word))
    compare("bin/believe lists what the definitions of the main promise name", sorted(missing), [])
    proof = (ROOT / "docs/PROOF.md").read_text()
    rows = proof[proof.index("| Phrase |"):proof.index("`run` is proved for every")]
    named = {name for row in rows.split("\n") for name in re.findall(r"`(\w+)`", row.split(" | ")[1] if " | " in row else "")}
    names = {name for _, name in listed}
    fields = {field for text in texts.values() for field in re.findall(r"(?m)^  pub (\w+) :", text)}
    compare("bin/believe lists the definitions that PROOF.md names phrase by phrase", sorted(named - names - fields), [])
    compare("there are such definitions", (named & names != set(), reached != set()), (True, True))


def anchors_of(text):
    """The places of a page that a link may name: those that are marked, and the headings as forges name them."""
    headings = re.findall(r"(?m)^#+ (.*)", text)
    slugs = {re.sub(r"[^\w -]", "", heading.lower()).replace(" ", "-") for heading in headings}
    return slugs | set(re.findall(r'<a id="([^"]*)"', text))


def broken_links(path):
    text = re.sub(r"(?ms)^```.*?^```", "", path.read_text())
    for target in re.findall(r"\]\(([^)\s]+)\)", re.sub(r"`[^`\n]*`", "", text.replace("[`", "[").replace("`]", "]"))):
        file, _, place = target.partition("#")
        page = (path.parent / file).resolve() if file else path
        if re.match(r"[a-z]+:", target):
            continue
        if not page.exists():
            yield f"{path.relative_to(ROOT)}: {target}"
        elif place and page.suffix == ".md" and place not in anchors_of(page.read_text()):
            yield f"{path.relative_to(ROOT)}: {target}"


def pages():
    return [path for pattern in ("*.md", "docs/*.md", "bench/*.md", "examples/*.md", "tests/*.md") for path in sorted(ROOT.glob(pattern))]


def test_pages():
    compare("there are documents", len(pages()) > 0, True)
    compare("the links of the documents lead somewhere", [link for page in pages() for link in broken_links(page)], [])


for test in (test_made, test_manuals, test_completions, test_bash, test_proof, test_believe, test_sources, test_pages):
    test()
with tempfile.TemporaryDirectory() as work:
    copied(Path(work))
    test_index(Path(work))
    test_evidence(Path(work))
commands.test_commands(compare, ROOT, PROGRAM)
print(f"{passed} passed, {failed} failed")
sys.exit(failed > 0)
