"""Manual pages (man macros) made of the pages in docs/, of the examples, and of what the command `homotopy` says of itself."""
import re

SYMBOLS = {"\u2192": "->", "\u2013": "-", "\u2026": "..", "\u00b7": "*"}


def escaped(text):
    """A text as the man macros take it: backslashes, and what would begin a request."""
    for symbol, plain in SYMBOLS.items():
        text = text.replace(symbol, plain)
    text = text.replace("\\", "\\e").replace("-", "\\-").replace("~", "\\(ti").replace("^", "\\(ha").replace("`", "\\(ga")
    return re.sub(r"^([.'])", r"\\&\1", text, flags=re.M)


def inline(text):
    """Markdown within a line: code and what is strong become bold, what is stressed italic, and a link its words."""
    text = re.sub(r"\[([^\]]*)\]\([^)]*\)", r"\1", text)
    parts = re.split(r"(`[^`]*`|\*\*.+?\*\*|\*[^*\s][^*]*\*)", text)
    made = []
    for part in parts:
        if part.startswith("`"):
            made.append("\\fB" + escaped(part.strip("`")) + "\\fR")
        elif part.startswith("**"):
            made.append("\\fB" + inline(part[2:-2]) + "\\fR")
        elif part.startswith("*") and part.endswith("*") and len(part) > 2:
            made.append("\\fI" + escaped(part[1:-1]) + "\\fR")
        else:
            made.append(escaped(part))
    text = "".join(made)
    return "\\&" + text if text.startswith((".", "'")) else text


def code(lines):
    """Lines as they are."""
    return [".PP", ".RS 4", ".nf"] + [escaped(line) or "\\&" for line in lines] + [".fi", ".RE"]


def cells_of(row):
    return [cell.strip().replace("\\|", "|") for cell in re.split(r"(?<!\\)\|", row.strip().strip("|"))]


def table(rows):
    """A table as a list of terms: the first column, and behind it the others, each with its head where they are more than one."""
    heads, *body = [cells_of(row) for row in rows if not re.fullmatch(r"[|\s:-]+", row)]
    made = []
    for cells in body:
        others = [cell for cell in cells[1:] if cell]
        told = others[0] if others else ""
        for head, cell in list(zip(heads, cells))[2:]:
            told += ". *%s*: %s" % (head[:1].upper() + head[1:], cell) if cell else ""
        made += [".TP", inline(cells[0]) or "\\&", inline(told or "-")]
    return made


def blocks_of(text):
    """The blocks of a page: each a kind and its lines."""
    blocks, kind = [], None
    for line in text.split("\n"):
        if not line.strip():
            if kind == "code":
                blocks[-1][1].append("")
            else:
                kind = None
            continue
        here = kind_of(line, kind)
        if here != kind or here in ("head", "item"):
            blocks.append((here, []))
        kind = "item" if here == "item" else here
        blocks[-1][1].append(line[4:] if here == "code" else line.strip())
    return [(kind, lines) for kind, lines in blocks if any(lines)]


def kind_of(line, before):
    if line.startswith("#"):
        return "head"
    if line.startswith("|"):
        return "table"
    if line.startswith("- "):
        return "item"
    if line.startswith("    "):
        return "code"
    return "more" if before in ("item", "more") and line.startswith("  ") else "text"


def page_body(text, depth=2):
    """A page in Markdown as man macros. Its title is left out; headings of `depth` become sections."""
    made = []
    for kind, lines in blocks_of(text):
        if kind == "head":
            level, words = re.match(r"(#+)\s*(.*)", lines[0]).groups()
            if len(level) >= depth:
                made.append(".SH %s" % escaped(words).upper() if len(level) == depth else ".SS %s" % escaped(words))
        elif kind == "code":
            while lines and not lines[-1]:
                lines.pop()
            made += code(lines)
        elif kind == "table":
            made += table(lines)
        elif kind == "item":
            made += [".IP \\(bu 2", inline(" ".join(lines)[2:])]
        elif kind == "more":
            made.append(inline(" ".join(lines)))
        else:
            made += [".PP", inline(" ".join(lines))]
    return made


def headed(name, section, version, says, body):
    """A whole page."""
    head = [".TH %s %s \"\" \"homotopy\\-tester %s\" \"Homotopy tester\"" % (name.upper(), section, version),
            ".SH NAME", "%s \\- %s" % (escaped(name), escaped(says))]
    return ("\n".join(head + body) + "\n").encode("utf-8")


# ---- the program

def section_of(page, title):
    """What stands below a heading, up to the next one of its depth."""
    found = re.search(r"^(#+) %s\n(.*?)(?=^#{1,2} |\Z)" % re.escape(title), page, re.M | re.S)
    return found[2]


def synopsis_of(commands):
    """The words of each command, and what it answers, from the page of commands."""
    rows = re.findall(r"^    homotopy_cli (([a-z-]+).*?) {2,}(.*)$", commands, re.M)
    return [(name, words, says) for words, name, says in rows]


def example_of(examples, name):
    """The first example of a command on a mesh as it is, with what it prints, from the page of examples, where each is run."""
    found = re.search(r"(?:^    (?!\$).*\n)*^    (\$ (?:(?!mesh_)[^\n|]*\| )?homotopy_cli %s .*\n(?:^    (?!\$).*\n)*)" % name, examples, re.M)
    return [line[4:] if line.startswith("    ") else line for line in found[1].rstrip("\n").split("\n")]


# How a row of the table of what is printed begins, where it is about some commands alone.
NAMES = re.compile(r"(all but )?(`[a-z-]+`(?:(?:, | and )`[a-z-]+`)*)[:,] ")


def is_about(where, status, name):
    """Whether a row is about a command, by the names that it begins with. Verdicts name none, and are of `verify`."""
    found = NAMES.match(where)
    if found is None:
        return name == "verify" and status in "01"
    return ("`%s`" % name in found[2]) != bool(found[1])


def printed_rows(formats):
    """The line, the status and the meaning of each row of that table."""
    return [cells_of(row)[:3] for row in section_of(formats, "What is printed").split("\n") if row.startswith("| ")][1:]


def printed_by(formats, name):
    """The rows of that table that are about a command, without the names before them."""
    rows = [row for row in printed_rows(formats) if is_about(row[2], row[1], name)]
    return ["| line | meaning |", "|---|---|"] + ["| %s | status %s: %s |" % (line, status, NAMES.sub("", where, 1))
                                                for line, status, where in rows]


def refusals_of_all(formats):
    """The rows about refusals that are of no one command."""
    rows = [(line, where) for line, status, where in printed_rows(formats) if status == "2" and NAMES.match(where) is None]
    told = "\n".join(["| line | meaning |", "|---|---|"] + ["| %s | %s |" % row for row in rows])
    told = told.replace("row of the command table", "line of the synopsis").replace("tables above", "tables of homotopy_files(5)")
    return told.split("\n")


def statuses(commands):
    return [".SH EXIT STATUS"] + table([row for row in section_of(commands, "Statuses").split("\n") if row.startswith("|")])


def program_page(version, pages):
    commands, formats, examples = pages["docs/COMMANDS.md"], pages["docs/FORMATS.md"], pages["examples/README.md"]
    body = [".SH SYNOPSIS"]
    for _, words, _ in synopsis_of(commands):
        body += [".B homotopy_cli", inline(words), ".br"]
    body += [".SH DESCRIPTION", "Decides whether walks along the edges of a polygon mesh can be moved over the surface to one another, and",
             "shows it. FILE is a mesh, WALKS two walks or more, CERT what another command printed; what they look like stands in",
             ".BR homotopy_files (5).", "The program is proved; the page docs/CLAIMS.md beside the examples says what is claimed of it.",
             ".SH COMMANDS"]
    for name, words, says in synopsis_of(commands):
        body += [".SS " + escaped(words), inline(says[0].upper() + says[1:] + ".")]
        body += table(printed_by(formats, name)) + [".PP", "Example:"] + code(example_of(examples, name))
    body += statuses(commands) + [".SH REFUSALS", "Beside those of each command there are these, with the status 2:"] + table(refusals_of_all(formats))
    body += [".PP", ".BR homotopy_files (5)", "names each fault of a file, and has the limits."]
    body += [".SH VERSION", "The words of the program are fixed, and it has no word for its version: this page is of version %s, and" % version,
             ".B homotopy \\-\\-version", "tells that of the command beside it.",
             ".SH SEE ALSO", ".BR mesh_double (1),", ".BR mesh_cover (1),", ".BR homotopy (1),", ".BR homotopy_files (5)"]
    return headed("homotopy_cli", 1, version, "decide whether walks on polygon meshes are homotopic", body)


def maker_page(version, name, says, words, commands, page):
    """A program that writes a mesh: from what the page of commands says of it, and its first example on the page that draws it."""
    told = re.search(r"^`%s` is .*?\)\. (It writes .*?)\n\n" % name, commands, re.M | re.S)[1].replace("statuses above", "statuses below")
    example = re.search(r"^(    \$ %s .*\n(?:    .*\n)*)" % name, page, re.M)[1]
    body = [".SH SYNOPSIS", ".B " + name, words, ".SH DESCRIPTION", inline(" ".join(told.split())), ".PP",
            "The pages in docs/ beside the examples draw why, and CLAIMS.md there says what is proved.", ".PP", "Example:"]
    body += code([line[4:] for line in example.rstrip("\n").split("\n")]) + statuses(commands)
    body += [".SH SEE ALSO", ".BR homotopy_cli (1),", ".BR homotopy_files (5)"]
    return headed(name, 1, version, says, body)


def files_page(version, pages):
    body = page_body(pages["docs/FORMATS.md"])
    return headed("homotopy_files", 5, version, "the files that homotopy_cli reads and prints", [".SH DESCRIPTION"] + body
                  + [".SH SEE ALSO", ".BR homotopy_cli (1),", ".BR homotopy (1)"])


# ---- the command for people

def command_page(version, parser):
    """From what the command says of itself."""
    below = next(action for action in parser._actions if hasattr(action, "choices") and isinstance(action.choices, dict))
    body = [".SH SYNOPSIS", ".B homotopy", ".I COMMAND", ".RI [ options ]", ".SH DESCRIPTION", escaped(parser.description),
            "It decides nothing itself: it asks the proved program", ".BR homotopy_cli (1).", ".SH COMMANDS"]
    for name, command in below.choices.items():
        body += [".SS " + escaped(command.format_usage().split(None, 1)[1].replace("\n", " ").strip()), escaped(command.description)]
        for action in command._actions:
            if action.help and action.dest != "help":
                shown = ", ".join(action.option_strings) or action.metavar
                body += [".TP", "\\fB%s\\fR" % escaped(shown), escaped(action.help % vars(action) if "%" in action.help else action.help)]
        body += [".PP", "Example:"] + code(["$ " + command.epilog.split("\n")[1].strip()])
    body += [".SH EXIT STATUS"] + page_body(parser.epilog.replace("status:\n  ", ""), 9)
    body += [".SH ENVIRONMENT", ".TP", "\\fBHOMOTOPY_CLI\\fR", "the program that is asked", ".TP", "\\fBMESH_DOUBLE\\fR",
             "the program that writes the double of a mesh with boundary", ".TP", "\\fBLIBHOMOTOPY\\fR",
             "the shared library of the Python module", ".TP", "\\fBNO_COLOR\\fR", "where it is set, no colours are used on a terminal",
             ".SH SEE ALSO", ".BR homotopy_cli (1),", ".BR homotopy_files (5)"]
    return headed("homotopy", 1, version, "ask whether walks on polygon meshes are homotopic", body)
