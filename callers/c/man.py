"""Makes the man page vahondrisa(3) of the header: man.py VERSION HEADER. man.py names HEADER: the functions that the page is also found by."""
import re
import sys


def escaped(line):
    """Returns a line as roff takes it for text."""
    line = line.replace("\\", "\\e").replace("-", "\\-")
    return "\\&" + line if line[:1] in (".", "'") else line


def comment_lines(text):
    """Returns the lines of a comment, without what marks it."""
    lines = text.strip().removeprefix("/**").removesuffix("*/").split("\n")
    return [re.sub(r"^\s*\*?( {1,2}(?!\t)|(?=\t))?", "", it).rstrip() for it in lines]


def paragraphs(lines):
    """Prints lines as paragraphs; what is indented by a tab stands as it is written."""
    is_code = False
    for line in lines:
        starts_code = line.startswith("\t")
        if starts_code != is_code and (starts_code or line):
            print(".PP\n.nf\n.RS 4" if starts_code else ".RE\n.fi\n.PP")
            is_code = starts_code
        tag = re.match(r"@(param\[\w+\] \w+|return)\s*(.*)", line)
        if tag:
            name = "Returns" if tag[1] == "return" else re.sub(r"param\[\w+\] ", "", tag[1])
            print(f".TP\n.I {name}\n{escaped(tag[2])}")
        elif not line:
            print(".PP" if not is_code else "")
        else:
            inner = re.sub(r"\s*@return\s*", "\n.br\nReturns ", line)
            print("\n".join(it if it.startswith(".br") else escaped(it) for it in inner.strip("\t").split("\n")))
    if is_code:
        print(".RE\n.fi")


def shown(line):
    """Returns a line of code, with what stands after it."""
    line = re.sub(r"^(\s+)\*( +)", r"\1 \2", line)
    return escaped(line.replace("\t", "    ")).replace("/**<", "\\(em").replace("*/", "").rstrip()


def section(name):
    print(f".SH {name.upper()}")


def main():
    version, path = sys.argv[1:]
    with open(path) as file:
        header = file.read()
    if version == "names":
        print("\n".join(re.findall(r"^(?:int|const char \*|#define) ?(vah_\w+)\(", header, re.M)))
        return
    head, body = header.split("*/", 1)
    parts = re.split(r"@section \w+\s+(.*)", head)
    print(f'.TH VAHONDRISA 3 "" "vahondrisa {version}" "Library functions"')
    section("name")
    print("vahondrisa \\- a persistent ordered index with transactions")
    section("synopsis")
    print(".nf\n#include <vahondrisa.h>\n\ncc program.c $(pkg\\-config \\-\\-cflags \\-\\-libs vahondrisa)\n.fi")
    section("description")
    paragraphs(comment_lines(re.sub(r"@file .*", "", parts[0]))[2:])
    for name, text in zip(parts[1::2], parts[2::2]):
        section(name)
        paragraphs(comment_lines(text.rsplit("*", 1)[0] if text.rstrip().endswith("*") else text))
    body = body.replace("/** @} */\n", "")
    items = re.findall(r"(/\*\*.*?\*/)?\n?((?:typedef|#define VAH_|const char|int vah_)[^\n]*(?:\n(?:\t[^\n]*|\} \w+;))*)", body, re.S)
    groups = {"Types": "typedef", "Codes and numbers": "#define", "Functions": ""}
    for title, start in groups.items():
        section(title)
        for comment, item in items:
            is_here = item.startswith(start) if start else not item.startswith(("typedef", "#define"))
            if not is_here:
                continue
            print(".PP\n.nf\n.B \"" + shown(item.split("\n")[0]).replace('"', '""') + '"')
            for line in item.split("\n")[1:]:
                print(shown(line))
            print(".fi")
            if comment and "@defgroup" not in comment and "@{" not in comment:
                print(".RS 4")
                paragraphs(comment_lines(comment))
                print(".RE")


main()
