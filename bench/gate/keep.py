#!/usr/bin/env python3
"""Proves crates as the gate does, and keeps what passed by the text that it is of, so that several clones share it. It is no gate: `rt ci` judges.

  keep.py prove NAME..     from nothing: each named crate and all below it, unless kept
  keep.py tests NAME..     the same, and the crate's tests, proved and run
  keep.py edits NAME..     the same, and its must-fail edits
  keep.py only NAME/EDIT.. each edit on the functions alone that it changes (FN=PATH names another)
  keep.py more [NAME..]    the same of the edits in tests/edits, which the gate doesn't try: of these crates, or of all
  keep.py all [--no-edits] everything of crates.txt, LANES (4) at a time; TESTS=0 leaves the tests out
  keep.py some NAME..      the same of these crates and those below them
  keep.py check [FLAGS]    in a crate's folder: what is below is proved or taken from what is kept, then `rt check FLAGS`
  keep.py libs             in a crate's folder: only what is below
  keep.py status           what of this clone is kept: proof, tests, edits

What is kept stands in KEEP (/var/tmp/pubsubd-keep). At most SLOTS (4) provers run at once, over all clones: more make each slower. It drives the
toolchain's own `rt` (its classes, as the gate uses them), and was written for kit 13b.
"""
import fcntl
import hashlib
import importlib.machinery
import importlib.util
import os
import re
import shutil
import subprocess
import sys
import tempfile
import threading
import time
sys.dont_write_bytecode = True
RT = os.path.realpath(shutil.which("rt") or "/opt/rattle/bin/rt")
STORE = os.environ.get("KEEP", "/var/tmp/pubsubd-keep")
os.makedirs(STORE, exist_ok=True)
SLOTS = int(os.environ.get("SLOTS", "4"))
def load(path, name):
    loader = importlib.machinery.SourceFileLoader(name, path)
    spec = importlib.util.spec_from_loader(name, loader)
    made = importlib.util.module_from_spec(spec)
    sys.modules[name] = made
    loader.exec_module(made)
    return made
rt = load(RT, "rtmain")
rtlib = rt.rtlib
rtlib.stop = rt.stop
rt.Crate.cuts_libraries = True
rtlib.Crate = rt.Crate
_stamp, _below = rtlib.Crate.stamp, rtlib.Crate.below
_memo, _memob = {}, {}
def memo_stamp(self):
    if self.folder not in _memo:
        _memo[self.folder] = _stamp(self)
    return _memo[self.folder]
def memo_below(self):
    if id(self) not in _memob:
        _memob[id(self)] = (self, _below(self))
    return list(_memob[id(self)][1])
rt.Crate.stamp, rt.Crate.below = memo_stamp, memo_below

def root_of(folder):
    while not os.path.isfile(f"{folder}/crates.txt"):
        up = os.path.dirname(folder)
        if up == folder:
            sys.exit("no crates.txt above")
        folder = up
    return folder

def crates(root):
    rt.Crate.allowed = rt.handles_of(root)
    rtlib.guarded()
    return {it.name: it for it in rtlib.crates_below(root)}

class Slot:
    """one of a few places for a proof to run in"""
    def __enter__(self):
        while True:
            for n in range(SLOTS):
                f = open(f"{STORE}/slot{n}", "w")
                try:
                    fcntl.flock(f, fcntl.LOCK_EX | fcntl.LOCK_NB)
                    self.f = f
                    return self
                except OSError:
                    f.close()
            time.sleep(0.5)
    def __exit__(self, *a):
        self.f.close()

stamps = {}
def stamp(c):
    if c.folder not in stamps:
        stamps[c.folder] = c.stamp()
    return stamps[c.folder]

def kept(c):
    return f"{STORE}/{c.name}/{stamp(c)[:24]}"

def take(c):
    """lays the kept library into the clone"""
    to = f"{c.folder}/out/rlib"
    try:
        with open(f"{to}/stamp") as f:
            if f.read() == stamp(c) and os.path.exists(f"{to}/kept"):
                return True
    except OSError:
        pass
    at = kept(c)
    if not os.path.exists(f"{at}/proved"):
        return False
    shutil.rmtree(to, ignore_errors=True)
    os.makedirs(os.path.dirname(to), exist_ok=True)
    if os.path.isdir(f"{at}/rlib"):
        shutil.copytree(f"{at}/rlib", to, copy_function=os.link)
        with open(f"{to}/stamp", "w") as f:
            f.write(stamp(c))
        open(f"{to}/kept", "w").close()
    return True

def locked(c, what):
    os.makedirs(f"{STORE}/{c.name}", exist_ok=True)
    f = open(f"{STORE}/{c.name}/lock-{stamp(c)[:24]}-{what}", "w")
    fcntl.flock(f, fcntl.LOCK_EX)
    return f

def libs(c):
    for d in c.below():
        if not prove(d):
            print(f"keep: {d.name}, below {c.name}, is not proved", flush=True)
            return False
    return True

def lay(c):
    """lays what is below into this clone"""
    with open(f"{root_of(c.folder)}/.git/keep-lock", "w") as f:
        fcntl.flock(f, fcntl.LOCK_EX)
        return libs(c) and all(take(d) for d in c.below())

JOBS = os.environ.get("KEEP_JOBS", "1")
def prove(c):
    at = kept(c)
    if os.path.exists(f"{at}/proved"):
        return True
    if os.path.exists(f"{at}/failed") and not os.environ.get("AGAIN"):
        print(f"keep: {c.name} failed before with this text: {at}/failed", flush=True)
        return False
    if not libs(c):
        return False
    with locked(c, "proof"):
        if os.path.exists(f"{at}/proved"):
            return True
        with Slot():
            return prove_now(c, at)

def workspace(c):
    """a copy of the crate's text and its libraries, so that edits meanwhile don't matter"""
    room = tempfile.mkdtemp(prefix=f"keep-{c.name}-", dir=STORE)
    with open(f"{room}/crates.txt", "w") as f:
        src = open(f"{root_of(c.folder)}/crates.txt").read()
        f.write(src)
    shutil.copyfile(f"{root_of(c.folder)}/HANDLES", f"{room}/HANDLES")
    os.makedirs(f"{room}/.git")
    for d in [*c.below(), c]:
        for part in (*rtlib.PARTS, "must-fail", "data", "stdin", "stdout", "args", "status"):
            if os.path.isdir(f"{d.folder}/{part}"):
                shutil.copytree(f"{d.folder}/{part}", f"{room}/crates/{d.name}/{part}")
            elif os.path.isfile(f"{d.folder}/{part}"):
                shutil.copyfile(f"{d.folder}/{part}", f"{room}/crates/{d.name}/{part}")
    # only the lines of these crates
    names = {d.name for d in [*c.below(), c]}
    with open(f"{room}/crates.txt", "w") as f:
        for line in src.splitlines():
            if line.partition(":")[0].split(" ")[0] in names:
                f.write(line + "\n")
    cs = crates(room)
    new = cs[c.name]
    for d in new.below():
        assert stamp(d) == {x.name: stamp(x) for x in c.below()}[d.name], d.name
        assert take(d), d.name
    return room, new

def prove_now(c, at):
    t0 = time.time()
    room, new = workspace(c)
    try:
        if stamp(new) != stamp(c):
            print("keep: the text changed meanwhile", flush=True)
            return False
        new.out = tempfile.TemporaryFile("w+", errors="replace")
        status = 1
        try:
            os.makedirs(f"{new.folder}/out", exist_ok=True)
            status = rtlib.fmt(new.folder, "--check", new.out)
            if status:
                print("rt: run rt fmt", file=new.out)
            rtlib.stop_on_text(new, "verdict")
            rt.stop_on_words(new)
            status = status or new.ci(["--jobs", JOBS], False)
        except SystemExit:
            status = 1
        new.out.seek(0)
        said = new.out.read()
        os.makedirs(at, exist_ok=True)
        with open(f"{at}/{'failed' if status else 'said'}", "w") as f:
            f.write(said)
        if not status:
            if os.path.isdir(f"{new.folder}/out/rlib"):
                shutil.move(f"{new.folder}/out/rlib", f"{at}/rlib")
            if new.is_program:
                os.makedirs(f"{at}/bin", exist_ok=True)
                for e in ("", ".by-rattle"):
                    if os.path.exists(f"{new.folder}/out/{new.name}{e}"):
                        shutil.copy(f"{new.folder}/out/{new.name}{e}", f"{at}/bin/")
                ok = True
                for e in rt.BACKENDS.values():
                    if os.path.isfile(f"{new.folder}/out/{new.name}{e}"):
                        ok = rt.run(new, False, e) and ok
                print(f"keep: {c.name} ran: {ok}", flush=True)
            with open(f"{at}/proved", "w") as f:
                f.write(f"{time.time()-t0:.0f}\n")
        print(f"keep: {c.name} {'NOT PROVED' if status else 'proved'} in {time.time()-t0:.0f} s  {at}", flush=True)
        return not status
    finally:
        shutil.rmtree(room, ignore_errors=True)

def tests(c):
    at = kept(c)
    if not c.has_tests():
        return prove(c)
    if os.path.exists(f"{at}/tested"):
        return True
    if not prove(c):
        return False
    with locked(c, "tests"):
        if os.path.exists(f"{at}/tested"):
            return True
        with Slot():
            t0 = time.time()
            room, new = workspace(c)
            try:
                new.out = tempfile.TemporaryFile("w+", errors="replace")
                os.makedirs(f"{new.folder}/out", exist_ok=True)
                try:
                    status = new.ci(["--jobs", JOBS], True)
                except SystemExit:
                    status = 1
                new.out.seek(0)
                said = new.out.read()
                with open(f"{at}/{'tests-failed' if status else 'tests-said'}", "w") as f:
                    f.write(said)
                ok = not status
                if ok and os.path.isfile(f"{new.folder}/out/{new.name}_tests"):
                    ok = rt.run(new, True)
                if ok:
                    open(f"{at}/tested", "w").write(f"{time.time()-t0:.0f}\n")
                print(f"keep: tests of {c.name} {'passed' if ok else 'FAILED (' + at + '/tests-failed)'} in {time.time()-t0:.0f} s", flush=True)
                return ok
            finally:
                shutil.rmtree(room, ignore_errors=True)

def edits_stamp(c):
    s = hashlib.sha256()
    good, bad = rt.edits_of(c)
    for it in sorted(good):
        s.update(os.path.basename(it).encode()); s.update(open(it, "rb").read())
    return s.hexdigest()[:16]

def edits(c):
    at = kept(c)
    good, bad = rt.edits_of(c)
    if bad:
        print("keep: bad edits", bad)
    if not good:
        return not bad
    if not prove(c):
        return False
    done = f"{at}/edits-{edits_stamp(c)}"
    if os.path.exists(done):
        return True
    with locked(c, "edits"):
        if os.path.exists(done):
            return True
        with Slot():
            t0 = time.time()
            room, new = workspace(c)
            try:
                good, bad = rt.edits_of(new)
                tried = rt.must_fail_all(new, good, ["--jobs", "1"])
                ok = True
                lines = []
                for it, (refused, text) in zip(good, tried):
                    lines.append(text)
                    if not refused:
                        ok = False
                        print("keep:", text, flush=True)
                with open(f"{at}/edits-said", "w") as f:
                    f.write("\n".join(lines) + "\n")
                if ok:
                    open(done, "w").write(f"{time.time()-t0:.0f}\n")
                print(f"keep: edits of {c.name} ({len(good)}) {'refused' if ok else 'NOT ALL REFUSED'} in {time.time()-t0:.0f} s", flush=True)
                return ok
            finally:
                shutil.rmtree(room, ignore_errors=True)

def functions_of(c, edit):
    """The functions that an edit changes."""
    if os.environ.get("FN"):
        return [os.environ["FN"]]
    path, found = "", []
    for line in open(edit):
        if line.startswith("file: "):
            path = line[6:].strip()
        if line.startswith("old: "):
            text = open(f"{c.folder}/{path}").read()
            before = text[: text.find(line[5:].rstrip("\n")) + len(line)]
            named = re.findall(r"(?m)^\s*(?:pub(?:\([a-z]+\))?\s+)?fn\s+(\w+)", before)
            found += named[-1:]
    return list(dict.fromkeys(found))

def only(cs, names):
    """tries edits on the functions alone that they change, over one another's work"""
    by, well = {}, True
    for it in names:
        by.setdefault(it.split("/")[0], []).append(it.split("/")[1])
    for name, edits_named in by.items():
        room, new = workspace(cs[name])
        with tempfile.TemporaryDirectory(prefix="only-", dir=STORE) as done:
            for edit in edits_named:
                file = f"{new.folder}/must-fail/{edit}"
                if not os.path.exists(file):
                    file = f"{root_of(cs[name].folder)}/tests/edits/{name}/{edit}"
                texts, why = rt.read_edit(file, new.folder)
                flags = ["--jobs", "1"] + [word for fn in functions_of(new, file) for word in ("--only", fn)]
                ran = None if why else rt.checked(new, texts, flags, done)
                lines = [] if why else ran.stdout.split("\n")
                refused = ran is not None and ran.returncode == 1 and any(re.match(r"fn \S+: (not proved|no proof)", it) for it in lines) and not any("error[" in it for it in lines)
                well = well and refused
                print(f"keep: {name}/{edit} {' '.join(flags[3::2])}: {'refused' if refused else 'LOOK: ' + str(why or lines[-4:])[:300]}", flush=True)
        shutil.rmtree(room, ignore_errors=True)
    return well

def everything(cs, with_edits):
    from concurrent.futures import ThreadPoolExecutor
    order = list(cs.values())
    below = {c.name: [d.name for d in c.below()] for c in order}
    weight = {c.name: c.count(rb"\n") for c in order}
    # longest chain first
    memo = {}
    def chain(n):
        if n not in memo:
            ups = [o for o in below if n in below[o]]
            memo[n] = weight[n] + max([chain(o) for o in ups] or [0])
        return memo[n]
    result, lock = {}, threading.Condition()
    todo = sorted([(0, -chain(c.name), c.name, "proof") for c in order] + ([(1, -weight[c.name], c.name, "tests") for c in order if c.has_tests()] if os.environ.get("TESTS", "1") == "1" else []) + ([(2, -weight[c.name], c.name, "edits") for c in order if rt.edits_of(c)[0]] if with_edits else []))
    def ready(t):
        n = t[2]
        if t[3] == "proof":
            return all((b, "proof") in result for b in below[n])
        return (n, "proof") in result
    def work():
        while True:
            with lock:
                while True:
                    it = next((t for t in todo if ready(t)), None)
                    if it or not todo:
                        break
                    lock.wait()
                if not it:
                    return
                todo.remove(it)
            c = cs[it[2]]
            try:
                ok = {"proof": prove, "tests": tests, "edits": edits}[it[3]](c)
            except Exception as e:
                print("keep: failure", it, e, flush=True)
                ok = False
            with lock:
                result[it[2], it[3]] = ok
                lock.notify_all()
    ts = [threading.Thread(target=work) for _ in range(int(os.environ.get("LANES", "4")))]
    [t.start() for t in ts]; [t.join() for t in ts]
    bad = [k for k, v in result.items() if not v]
    print("keep:", len(result) - len(bad), "passed,", len(bad), "failed", bad, flush=True)
    return not bad

def main():
    words = sys.argv[1:]
    verb = words[0]
    if verb == "rt-check":
        # rt itself, which would ask for the stamp of a crate once for each way that leads to it
        return rt.main(["check", *words[1:]])
    here = os.getcwd()
    root = root_of(here)
    cs = crates(root)
    for c in cs.values():
        stamp(c)
    if verb in ("prove", "tests", "edits"):
        ok = True
        for n in words[1:]:
            ok = {"prove": prove, "tests": tests, "edits": edits}[verb](cs[n]) and ok
        return 0 if ok else 1
    if verb == "only":
        return 0 if only(cs, words[1:]) else 1
    if verb == "more":
        folder = f"{root}/tests/edits"
        names = [it for it in sorted(os.listdir(folder)) if it in cs and (len(words) == 1 or it in words)]
        return 0 if only(cs, [f"{it}/{edit}" for it in names for edit in sorted(os.listdir(f"{folder}/{it}"))]) else 1
    if verb == "all":
        return 0 if everything(cs, "--no-edits" not in words) else 1
    if verb == "some":
        names = set()
        for n in words[1:]:
            if n.startswith("--"): continue
            names |= {n, *[d.name for d in cs[n].below()]}
        return 0 if everything({n: c for n, c in cs.items() if n in names}, "--no-edits" not in words) else 1
    if verb == "status":
        for c in cs.values():
            at = kept(c)
            has = lambda f: os.path.exists(f"{at}/{f}")
            print(f"{c.name:18} proof {'yes' if has('proved') else 'FAILED' if has('failed') else '-':7} tests {('yes' if has('tested') else '-') if c.has_tests() else 'none':5} edits {'yes' if has('edits-' + edits_stamp(c)) else '-' if rt.edits_of(c)[0] else 'none'}")
        return 0
    name = os.path.basename(here)
    c = cs[name]
    if verb in ("check", "libs"):
        if not libs(c) or not lay(c):
            return 1
        if verb == "libs":
            return 0
        flags = words[1:]
        if not any(f.startswith("--jobs") for f in flags):
            flags = ["--jobs", "1", *flags]
        with Slot():
            return subprocess.call([sys.executable, os.path.abspath(__file__), "rt-check", *flags])
    if verb in ("rt",):
        if not libs(c) or not lay(c):
            return 1
        with Slot():
            return subprocess.call([RT, *words[1:]])
    return 2
if __name__ == "__main__":
    sys.exit(main())
