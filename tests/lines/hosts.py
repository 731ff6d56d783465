"""Makes the rows of lines on several hosts that the tests of `ps_core_tests` go through, or checks that they are those of the cases.

    python3 tests/lines/hosts.py            writes crates/ps_core_tests/src/rows/NAME.rt for each hosts/NAME.txt
    python3 tests/lines/hosts.py --check    compares them, and ends with 1 where they differ

A table has three lines for each step, whose stream it is on, the line, and the reply, and below them one for each notice; a line `-` stands between
two steps (specified in `src/rows.rt` there).

A file begins with a service that was just booted. Its cases are those of make.py, but that WHO is `name@a` or `name@b`, of the host
`a.example` or `b.example`, and that the reply of a line which makes an entry begins with `* `. `at N ` before a line is its moment, in
seconds. Indented below the reply stand the notices that the entry makes, all of them and in their order; none where there are none:

    > TO NUMBER [KIND] [from ADDRESS] PARTS

TO is `name@b`, with its resource if it has one; the rest is as in make.py.

These lines stand alone. `gone b` ends the stream of that host, `boot` boots the service again, `handed name@b` hands out the first
notice to that address which wasn't handed out yet, and `not handed name@b` says that there is none.
"""
import pathlib
import re
import sys

import make
import notation

HERE = pathlib.Path(__file__).resolve().parent
ROWS = HERE.parent.parent / "crates" / "ps_core_tests" / "src" / "rows"


def whole(who):
    """The address, and its host."""
    name, slash, resource = who.partition("/")
    local, _, host = name.partition("@")
    host = host if "." in host else f"{host}.example"
    return f"{local}@{host}{slash}{resource}", host


def sent(number, text):
    """The host with the line's moment behind it, the line that is sent, and the head of its reply."""
    moment = re.match(r"at \d+ ", text)
    text = text[moment.end() :] if moment else text
    who = text.partition(" ")[0]
    sender, host = whole(who if "/" in who else f"{who}/1")
    make.address_of = lambda _: sender
    root, head = make.sent_stanza(number, text)
    return f"{host} {moment[0] if moment else ''}".strip(), notation.line_of(root), head


def notice(text):
    """The notice, as the line of the table."""
    to, number, line = make.notice(text, lambda who: whole(who)[0])
    return f"> {to} {number} {line.decode()}"


def record(head, line=b"", reply=b""):
    """A step, as three lines of the table."""
    return [head, line.decode(), (reply or b"").decode()]


def alone(text):
    """The head of a line that stands alone, or None."""
    match = re.match(r"(boot|gone|handed|not handed)(?: (\S+))?$", text)
    if match is None:
        return None
    word, who = match.groups()
    if word == "boot":
        return word
    return f"{word} {who}.example" if word == "gone" else f"{word} {whole(who)[0]}"


def cases(path):
    """Each line that isn't indented, with the indented ones below it."""
    found = []
    for line in path.read_text().splitlines():
        if line.startswith("#") or not line.strip():
            continue
        if line.startswith(" "):
            found[-1].append(line.strip())
        else:
            found.append([line])
    return found


def steps(path):
    """The steps of a file, each as its lines."""
    found = []
    for text, *below in cases(path):
        head = alone(text)
        if head is not None:
            found.append(record(head))
            continue
        for one, answer, *told in make.repeated(text, *below):
            makes = answer.startswith("* ")
            number = len(found) + 1
            host, line, head = sent(number, one)
            step = record(host + " makes" * makes, line, make.received(number, head, answer.removeprefix("* ")))
            found.append(step + [notice(text) for text in told])
    return found


def content(path, found, script):
    title = path.read_text().splitlines()[0].removeprefix("# ")
    table = "\n-\n".join("\n".join(step) for step in found)
    marks = "#"
    while f'"{marks}' in table:
        marks += "#"
    cases_at = path.relative_to(HERE.parent.parent)
    return f'// {title}\n// Made by {script} from the cases in {cases_at}.\npub const ROWS: &str = r{marks}"{table}"{marks};\n'


def write_or_check(files):
    """Writes each file's text, or says which files differ from it."""
    if "--check" not in sys.argv[1:]:
        for path, text in files.items():
            path.write_bytes(text)
        return 0
    others = [path for path, text in files.items() if not path.is_file() or path.read_bytes() != text]
    for path in others:
        print(f"{path} isn't what the cases make")
    return 1 if others else 0


def main():
    script = pathlib.Path(__file__).resolve().relative_to(HERE.parent.parent)
    files = {ROWS / f"{path.stem}.rt": content(path, steps(path), script).encode() for path in sorted((HERE / "hosts").glob("*.txt"))}
    return write_or_check(files)


if __name__ == "__main__":
    sys.exit(main())
