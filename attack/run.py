#!/usr/bin/env python3
"""Tries every wrong answer: each edit is made in a copy of its crate, and the prover must refuse it there.

usage: attack/run.py [CRATE...]   try the edits of these crates, or of all; say which fact fails of each
       attack/run.py --table      print the table of wrong answers that docs/PROMISES.md has
       attack/run.py --check      every public function has two wrong answers, and docs/PROMISES.md has the table

An edit stands in crates/CRATE/must-fail, where the gate tries it too, or in attack/edits/CRATE. Its first line says
the wrong answer, and a line 'of: FUNCTION' whose contract rules it out. In attack/edits an old or new text may have
several lines, and an edit may change a proof too, or give a whole one (whole: FILE, and then its lines as new texts),
where a fact that stays true has to be shown in another way. WORKERS=N in the environment tries N crates at a time, not 2.
"""
import glob, os, queue, re, shutil, subprocess, sys, tempfile, threading

ROOT = os.path.dirname(os.path.dirname(os.path.abspath(__file__)))
TABLE = ("<!-- wrong answers: attack/run.py --table -->\n", "<!-- end of wrong answers -->\n")
WORKERS = int(os.environ.get("WORKERS", "2"))
# a line of the prover: its file, the statement that it is of, if any, and what does not hold
ERROR = re.compile(r"^(?:\./)?(\S+?):\d+:\d+: error: (?:(`[^`]*`): )?(.*)", re.M)
FOLLOWS = re.compile(r"(was|were) not checked")
# what is said of a text that cannot be read, however true its statements are
UNREADABLE = re.compile(r"is not in scope|has no field|has no `|is no name|operand is missing|expected the end|cannot continue")


def stop(text):
    sys.exit("attack: " + text)


def read(path):
    with open(path, encoding="utf-8") as f:
        return f.read()


class Edit:
    """A wrong version: its sentence, the functions it is of, and the texts put in place of others."""

    def __init__(self, crate, path):
        self.crate, self.path = crate, path
        self.name = os.path.basename(path)[: -len(".edit")]
        self.gate = "/must-fail/" in path
        lines = read(path).split("\n")
        self.says = lines[0]
        self.of = [name for line in lines if line.startswith("of: ") for name in line[4:].split(", ")]
        self.pairs, where = [], None
        for line in lines:
            word, _, text = line.partition(":")
            if word == "file":
                where = text[1:]
            elif word == "old" and self.pairs and self.pairs[-1][2] is None:
                self.pairs[-1][1] += "\n" + text[1:]
            elif word == "old":
                self.pairs.append([where, text[1:], None])
            elif word == "whole":
                self.pairs.append([text[1:], None, None])
            elif word == "new" and self.pairs[-1][2] is None:
                self.pairs[-1][2] = text[1:]
            elif word == "new":
                self.pairs[-1][2] += "\n" + text[1:]
        if not self.pairs:
            stop(f"{os.path.relpath(path, ROOT)} changes nothing")

    def made(self, repo):
        """The changed files, as they were and as they are with the edit."""
        before, after = {}, {}
        for where, old, new in self.pairs:
            path = os.path.join(repo, "crates", self.crate, where)
            before.setdefault(path, read(path))
            text = after.get(path, before[path])
            if old is not None and text.count(old) != 1:
                raise ValueError(f"{where} has {text.count(old)} times: {old}")
            after[path] = new + "\n" if old is None else text.replace(old, new)
        return before, after


def crates():
    lines = [line.split("#")[0] for line in read(os.path.join(ROOT, "crates.txt")).split("\n")]
    return [line.split(":")[0].split()[0] for line in lines if ":" in line]


def edits():
    found = []
    for crate in crates():
        for folder in (f"crates/{crate}/must-fail", f"attack/edits/{crate}"):
            found += [Edit(crate, path) for path in sorted(glob.glob(os.path.join(ROOT, folder, "*.edit")))]
    return found


def public():
    """Every function that another crate or the linker can name, as CRATE::MODULE::NAME."""
    names = []
    for crate in crates():
        source = os.path.join(ROOT, "crates", crate, "src")
        rooms = [("lib", [crate], r'^ *pub fn (\w+)')]
        if not os.path.exists(os.path.join(source, "lib.rt")):
            continue
        for shown, module in re.findall(r"^(pub )?mod (\w+);", read(os.path.join(source, "lib.rt")), re.M):
            if shown:
                rooms.append((module, [crate, module], r"^ *pub fn (\w+)"))
            else:
                rooms.append((module, [crate], r'^pub extern "C" fn (\w+)'))
        for module, room, pattern in rooms:
            names += ["::".join(room + [name]) for name in re.findall(pattern, read(os.path.join(source, module + ".rt")), re.M)]
    return names


def table(all_edits):
    rows = ["| function | wrong answers that its contract rules out |", "|---|---|"]
    for name in public():
        crate, _, short = name.partition("::")
        said = [f"{e.says} `{e.name}`{'' if e.gate else ' †'}" for e in all_edits if e.crate == crate and short in e.of]
        rows.append(f"| `{name}` | {'<br>'.join(said)} |")
    return "\n".join(rows) + "\n"


def check(all_edits):
    wrong = 0
    functions = public()
    for name in functions:
        crate, _, short = name.partition("::")
        count = sum(1 for e in all_edits if e.crate == crate and short in e.of)
        if count < 2:
            wrong += 1
            print(f"{name}: {count} wrong answers, two are due")
    known = set(functions)
    for e in all_edits:
        for short in e.of:
            if f"{e.crate}::{short}" not in known:
                wrong += 1
                print(f"{os.path.relpath(e.path, ROOT)}: no public function {e.crate}::{short}")
        try:
            e.made(ROOT)
        except (ValueError, OSError) as fault:
            wrong += 1
            print(f"{os.path.relpath(e.path, ROOT)}: {fault}")
    page = read(os.path.join(ROOT, "docs", "PROMISES.md"))
    if TABLE[0] + table(all_edits) + TABLE[1] not in page:
        wrong += 1
        print("docs/PROMISES.md: its table of wrong answers is not the one that --table prints")
    print(f"{len(functions)} public functions, {len(all_edits)} edits, {wrong} faults")
    return wrong


def prove(repo, crate):
    done = subprocess.run(["rt", "check"], cwd=os.path.join(repo, "crates", crate), capture_output=True, text=True)
    return done.returncode, done.stdout + done.stderr


def unread(log, changed):
    """What the prover cannot read of the edited text: such an edit says nothing of a contract."""
    for file, name, said in ERROR.findall(log):
        if FOLLOWS.search(said) or file.startswith("proofs/") and file not in changed:
            continue
        if not name or UNREADABLE.search(re.sub("`[^`]*`", "``", said)):
            return f"{file}: {said}"
    return None


def reason(log):
    """The first thing that the prover says does not hold; not what only follows from it."""
    errors = [(file, (name + ": " if name else "") + said) for file, name, said in ERROR.findall(log) if not FOLLOWS.search(said)]
    for file, said in errors:
        if not UNREADABLE.search(said):
            return f"{file}: {said[:160]}"
    for line in log.split("\n"):
        found = re.match(r"fn (\S+): no proof: .*; (.*)", line)
        if found:
            return f"{found.group(1)}: {found.group(2)}"
    for file, said in errors:
        return f"a name that the edit took away, and no more: {file}: {said[:160]}"
    for line in log.split("\n"):
        if line.startswith("fn ") and not line.endswith(": proved"):
            return line
    return "?"


def work(repo, todo, results):
    while True:
        try:
            crate, its = todo.get_nowait()
        except queue.Empty:
            return
        code, log = prove(repo, crate)
        if code != 0:
            results.append((crate, None, f"{crate} is not proved as it stands"))
            continue
        for e in its:
            try:
                before, after = e.made(repo)
            except (ValueError, OSError) as fault:
                results.append((crate, e, f"BAD EDIT: {fault}"))
                print(f"{crate}/{e.name}: BAD EDIT: {fault}", flush=True)
                continue
            for path, text in after.items():
                with open(path, "w", encoding="utf-8") as f:
                    f.write(text)
            code, log = prove(repo, crate)
            for path, text in before.items():
                with open(path, "w", encoding="utf-8") as f:
                    f.write(text)
            fault = unread(log, [os.path.relpath(path, os.path.join(repo, "crates", crate)) for path in after])
            refused = code == 1 and "\nlogic=not-proved" in log and not fault
            if refused:
                told = reason(log)
            elif code == 0:
                told = "NOT REFUSED"
            elif code == 1:
                fault = fault or next((line for line in log.split("\n") if ": error" in line), log[:300])
                told = f"BAD EDIT, the prover cannot read it: {fault[:300]}"
            else:
                told = f"NO VERDICT, rt check ends with {code}: {log[-300:]}"
            results.append((crate, e, None if refused else told))
            print(f"{crate}/{e.name}: {'refused at ' if refused else ''}{told}", flush=True)


def attack(names):
    for name in names:
        if name not in crates():
            stop(f"there is no crate {name} in crates.txt")
    runs = [(os.path.join("crates", name), ["rt", "check"]) for name in names] or [("", ["rt", "all", "check"])]
    for folder, command in runs:
        if subprocess.run(command, cwd=os.path.join(ROOT, folder), stdout=subprocess.DEVNULL).returncode:
            stop(f"{' '.join(command)} fails in ./{folder}, so there is nothing to attack")
    todo, results = queue.Queue(), []
    for crate in reversed(crates()):
        its = [e for e in edits() if e.crate == crate]
        if its and (not names or crate in names):
            todo.put((crate, its))
    with tempfile.TemporaryDirectory() as temporary:
        hands = []
        for n in range(WORKERS):
            repo = os.path.join(temporary, str(n))
            os.mkdir(repo)
            shutil.copy(os.path.join(ROOT, "crates.txt"), repo)
            # with what rt kept in each out/, so that only what an edit changes is proved
            shutil.copytree(os.path.join(ROOT, "crates"), os.path.join(repo, "crates"), ignore=shutil.ignore_patterns("must-fail"))
            hands.append(threading.Thread(target=work, args=(repo, todo, results)))
            hands[-1].start()
        for hand in hands:
            hand.join()
    passed = [r for r in results if r[2]]
    print(f"{len(results)} edits, {len(results) - len(passed)} refused, {len(passed)} not")
    return len(passed)


words = sys.argv[1:]
if words == ["--table"]:
    print(table(edits()), end="")
elif words == ["--check"]:
    sys.exit(1 if check(edits()) else 0)
elif any(w.startswith("-") for w in words):
    print(__doc__.strip())
    sys.exit(0 if words[0] in ("-h", "--help") else 2)
else:
    sys.exit(1 if attack(words) else 0)
