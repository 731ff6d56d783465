"""Makes the input and the output of the program's own run from the cases, or checks that they are those of the cases.

    python3 tests/lines/make.py            writes crates/pubsubd/data/in.txt, tests/lines/replies.txt and tests/lines/notices.txt
    python3 tests/lines/make.py --check    compares them, and ends with 1 where they differ

A case is a line that is sent and, indented below it, the reply and then the notices. Lines that begin with `#` are comments. What is sent:

    WHO TYPE [to TARGET] PARTS       an iq of that type, from WHO@a.example/1 (WHO/2: with the resource 2) to the service host
    WHO message[:TYPE] [to T] PARTS  a message, of that type if there is one; so is `presence`
    stanza TREE                      a root with its attributes
    raw TEXT                         the line as it is
    bytes TEXT                       the same, with escapes of Python for bytes
    padded N TEXT                    the line with spaces after it, up to N bytes

PARTS are trees of notation.py, or `P:` or `O:` and the children of `pubsub` in the namespace of users or of owners. `to -` leaves the
attribute out. The id is the number of the line. `for A..B ` before all of it repeats the case with `$` as each of these numbers.
The reply:

    result [PARTS]                   a result, with that child if there is one
    denied N [FEATURE]               an error of condition N of replies.py
    refused WHY                      the line is refused
    nothing                          no reply
    reply TREE, raw TEXT             this root, this line

` by ADDRESS` after a result or a denial says whom it is from, where that isn't the target as it was written.

The notices are those that the line makes for addresses of `a.example`, all of them; none where there are none. Those for other hosts,
which the run doesn't serve, aren't written down:

    > WHO NUMBER [KIND] [from ADDRESS] PARTS

to WHO, with the resource if it has one, and with the id `n-NUMBER`. KIND is that of a stanza above, as `message` or `iq:get`, and
`message:headline` where it is left out; the stanza is from the service host where no address is named.
"""
import pathlib
import re
import sys

import notation
import replies
from notation import Element, NAMESPACES

HERE = pathlib.Path(__file__).resolve().parent
PROGRAM = HERE.parent.parent / "crates" / "pubsubd"
SERVICE = "pubsub.example"
IQ_TYPES = ("get", "set", "result", "error")


def parts_of(text):
    """The children that a text of parts stands for."""
    match = re.match(r"([PO]): *", text)
    if match is None:
        return notation.read(text)
    return [Element("pubsub", NAMESPACES[match[1]], {}, notation.read(text[match.end() :]))]


def address_of(who):
    name, _, resource = who.partition("/")
    return f"{name}@a.example/{resource or '1'}"


def sent_stanza(number, text):
    """The root that is sent, and the head of its reply."""
    match = re.match(r"(\S+) (\S+)(?: to (\S+))?(?: +(.*))?$", text)
    who, kind, target, parts = match.groups()
    name, _, type_of = ("iq", "", kind) if kind in IQ_TYPES else kind.partition(":")
    sender = address_of(who)
    attributes = {"from": sender, "id": str(number), "to": target or SERVICE}
    if type_of:
        attributes["type"] = type_of
    if target == "-":
        del attributes["to"]
        target = sender.partition("/")[0]
    head = {"name": name, "sender": sender, "target": target or SERVICE, "id": str(number)}
    return Element(name, None, attributes, parts_of(parts or "")), head


def head_of(root):
    """The head of the reply to a root that was given whole, with addresses as they are printed."""
    found = root.attributes
    return {"name": root.name, "sender": found.get("from"), "target": found.get("to"), "id": found.get("id")}


def bytes_of(text):
    return text.encode().decode("unicode_escape").encode("latin-1")


def sent(number, text):
    """The line that is sent, and the head of its reply, if it can have one."""
    word, _, rest = text.partition(" ")
    if word == "bytes":
        return bytes_of(rest), None
    if word == "raw":
        return rest.encode(), None
    if word == "padded":
        length, _, line = rest.partition(" ")
        return line.encode().ljust(int(length)), None
    if word == "stanza":
        root = notation.read(rest)[0]
        return notation.line_of(root), head_of(root)
    root, head = sent_stanza(number, text)
    return notation.line_of(root), head


def answer_to(head, text):
    """The reply to a stanza of that head."""
    text, _, other = text.partition(" by ")
    head = dict(head, target=other or head["target"])
    word, _, rest = text.partition(" ")
    if word == "result":
        return replies.answer(head, "result", parts_of(rest))
    if word == "denied":
        condition, _, feature = rest.partition(" ")
        return replies.answer(head, "error", [replies.error_of(int(condition), feature)])
    raise ValueError("no reply: " + text)


def received(number, head, text):
    """The line that is received, or None."""
    word, _, rest = text.partition(" ")
    if word == "nothing":
        return None
    if word == "raw":
        return rest.encode()
    if word == "reply":
        return notation.line_of(notation.read(rest)[0])
    if word == "refused":
        return notation.line_of(replies.refused(number, rest))
    return notation.line_of(answer_to(head, text))


def notice(text, whole):
    """Whom a notice is to, its number, and its line; `whole` is the address that a name in these files stands for."""
    match = re.match(r"> (\S+) (\d+)(?: (message|iq)(?::(\S+))?)?(?: from (\S+))? +(.*)$", text)
    who, number, name, kind, sender, parts = match.groups()
    name, kind = (name, kind) if name else ("message", "headline")
    attributes = {"from": whole(sender) if sender else SERVICE, "id": f"n-{number}", "to": whole(who)}
    if kind:
        attributes["type"] = kind
    return whole(who), number, notation.line_of(Element(name, None, attributes, parts_of(parts)))


def told_address(who):
    """The address of one who is told: bare where no resource is named."""
    name, slash, resource = who.partition("/")
    return f"{name}@a.example{slash}{resource}"


def cases():
    """All cases in order: where each stands, what is sent, what is received, and the notices."""
    for path in sorted((HERE / "cases").glob("*.txt")):
        case = []
        for at, line in enumerate(path.read_text().splitlines(), 1):
            where = f"{path.name}:{at}"
            if line.startswith("#") or not line.strip():
                continue
            if not line.startswith(" "):
                if len(case) == 2:
                    raise ValueError(f"{where}: the case before has no reply")
                if case:
                    yield case
                case = [where, line]
                continue
            if not case:
                raise ValueError(f"{where}: a reply to nothing")
            if line.lstrip().startswith("> ") != (len(case) > 2):
                raise ValueError(f"{where}: a case has one reply, and notices below it")
            case.append(line.strip())
        yield case


def repeated(request, *others):
    """The case, as often as it says: its request and what stands below it."""
    request, others = notation.long_text(request), [notation.long_text(other) for other in others]
    match = re.match(r"for (\d+)\.\.(\d+) ", request)
    if match is None:
        yield request, *others
        return
    for k in range(int(match[1]), int(match[2]) + 1):
        yield request[match.end() :].replace("$", str(k)), *(other.replace("$", str(k)) for other in others)


def run_of_cases():
    """The lines of the run, its replies and its notices."""
    lines, answers, notices = [], [], []
    for where, request, *below in cases():
        try:
            for one, answer, *told in repeated(request, *below):
                line, head = sent(len(lines) + 1, one)
                lines.append(line)
                answers.append(received(len(lines), head, answer))
                notices += [notice(text, told_address)[2] for text in told]
        except Exception as why:
            raise ValueError(f"{where}: {request}") from why
    return lines, [answer for answer in answers if answer is not None], notices


def main():
    lines, answers, notices = run_of_cases()
    # The last line has no newline.
    files = {
        PROGRAM / "data" / "in.txt": b"\n".join(lines),
        HERE / "replies.txt": b"".join(answer + b"\n" for answer in answers),
        HERE / "notices.txt": b"".join(line + b"\n" for line in notices),
    }
    if "--check" not in sys.argv[1:]:
        for path, content in files.items():
            path.write_bytes(content)
        return 0
    others = [path for path, content in files.items() if not path.is_file() or path.read_bytes() != content]
    for path in others:
        print(f"{path} isn't what the cases make")
    return 1 if others else 0


if __name__ == "__main__":
    sys.exit(main())
