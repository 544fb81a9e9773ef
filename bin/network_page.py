"""The manual page of the scripts of network/: what each says of itself, with the words by which it is called once installed."""

import itertools
import re
import textwrap

WIDTH = 64  # characters of a line before its signs of roff, so that a line of the page has at most 80


def head_of(script):
    """What a script says of itself: the comment or the text at its head."""
    text = script.read_text()
    if found := re.search(r'\A(?:#.*\n)+"""((?s:.*?))"""', text):
        return found[1].rstrip()
    lines = text.split("\n")[1:]
    lines = lines[:next(at for at, line in enumerate(lines) if not line.startswith("#"))]
    return "\n".join(re.sub("^# ?", "", line) for line in lines).rstrip("#\n ")


def roff(text):
    """A line of text as a line of roff."""
    return re.sub(r"^([.'])", r"\\&\1", text.replace("\\", "\\e").replace("-", "\\-"))


def wrapped(text, indent=""):
    """Lines of roff that a text fills."""
    lines = textwrap.wrap(" ".join(text.split()), WIDTH, subsequent_indent=indent, break_on_hyphens=False, break_long_words=False)
    return "".join(f"{roff(line)}\n" for line in lines)


def entries_of(lines):
    """The entries of a list: the word of each line that is set in by four blanks, and the words that explain it, which may go on in lines
    that are set in deeper."""
    for line in lines:
        if found := re.fullmatch(r"    (\S.*?)(?: {2,}(\S.*))?", line):
            yield [found[1], found[2] or ""]
        else:
            yield [None, line.strip()]


def listed(lines):
    """A list with an explanation of each word, or else lines that stay as they are."""
    found = []
    for word, text in entries_of(lines):
        if word is None and found:
            found[-1][1] += f" {text}"
        else:
            found.append([word or "", text])
    if all(text for _, text in found):
        return "".join(f".TP\n{roff(word)}\n{wrapped(text)}" for word, text in found)
    return ".PP\n.EX\n" + "".join(f"    {it}" for word, text in found
        for it in wrapped(f"{word} {text}", "        ").splitlines(keepends=True)) + ".EE\n"


def body(text, name):
    """The text of a script. Its paragraphs are filled."""
    text = re.sub(r"(?m)^( *)network/(?=[a-z])", rf"\1{name}-network ", text)
    parts = []
    for is_code, lines in itertools.groupby(text.split("\n"), lambda line: line.startswith(" ")):
        lines = list(lines)
        paragraphs = [] if is_code else [it for it in re.split(r"\n{2,}", "\n".join(lines).strip("\n")) if it]
        parts += [listed(lines)] if is_code else [f".PP\n{wrapped(it)}" for it in paragraphs]
    return re.sub(r"\A\.PP\n", "", "".join(parts))


def network_page(name, version, date, scripts, statuses, places):
    """The whole page. `statuses` has the rows of the table of statuses, and `places` the folders of scripts and documents."""
    network, doc = places
    about = (f"Runs the script /{network}/COMMAND, with the settings of /etc/{name}/environment and the tables /etc/{name}/stations and "
        f"/etc/{name}/sources, where the environment has no others. The file labels beside the table of stations has more fields of the "
        "headers.")
    parts = [f'.TH RTCM2RINEX\\-NETWORK 1 {date} "{name} {version}"\n.SH NAME\n{name}\\-network \\- '
        "RINEX files of many stations from captures of RTCM 3\n.SH SYNOPSIS\n"
        f"\\fB{name}\\-network\\fR \\fICOMMAND\\fR [\\fIWORD\\fR ..]\n.SH DESCRIPTION\n{wrapped(about)}.SH COMMANDS\n"]
    parts += [f".SS {roff(path.name)}\n{body(head_of(path), name)}" for path in scripts]
    parts += [".SH EXIT STATUS\n", *(f".TP\n{number}\n{wrapped(f'{means} {then}')}" for number, means, then in statuses)]
    return "".join(parts) + f".SH SEE ALSO\n.BR {name} (1),\n/{doc}/docs/NETWORKS.md\n"
