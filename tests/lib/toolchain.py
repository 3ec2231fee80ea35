"""The toolchain's command `rt` as a library, for the scripts of tests/gate and contrib/build: its crates, the words that it
gives to the prover, and copies of this repository's crates for it to work in."""
import importlib.machinery
import importlib.util
import os
import re
import shutil
import subprocess
import sys

sys.dont_write_bytecode = True
TOP = os.path.dirname(os.path.dirname(os.path.dirname(os.path.abspath(__file__))))
# The crates of tests, which are compiled and run and not proved: lines as in crates.txt. Their sources end in
# .rs, since `rt` refuses any .rt file that no crate of crates.txt names.
TESTS = f"{TOP}/tests/data/tests.txt"
# What the program prints of how it was built.
BUILD = "crates/ipx_tool/src/build.rt"
# What one check, or the compilation of a crate's tests, is likely to need of memory, in bytes.
ONE_CHECK = 4_000_000_000


def command():
    """The file that `rt` is, or None."""
    found = shutil.which("rt")
    return os.path.realpath(found) if found else None


def kit():
    """The folder of the toolchain."""
    return os.path.dirname(os.path.dirname(command() or sys.exit("rt is not on the PATH")))


def make_kit(at, others):
    """Makes a toolchain of links to the files of the real one, and answers its `rt`, which works with these. Some files are
    others: what is there instead, by their paths. And `rattle`, which `rt try` runs beside the compilation only for a
    hint on names, does nothing."""
    own = {"bin/rt", "bin/rtlib.py", "bin/rattle", *others}
    folders = {above for path in own for above in parents(path)}
    for folder in sorted(folders):
        os.makedirs(f"{at}/{folder}", exist_ok=True)
        for name in os.listdir(f"{kit()}/{folder}"):
            path = f"{folder}/{name}".lstrip("/")
            if path not in own | folders:
                os.symlink(f"{kit()}/{path}", f"{at}/{path}")
    # (they look for the other files beside themselves)
    for path in ("bin/rt", "bin/rtlib.py"):
        shutil.copy(f"{kit()}/{path}", f"{at}/{path}")
    os.symlink(shutil.which("true"), f"{at}/bin/rattle")
    for path, text in others.items():
        with open(f"{at}/{path}", "w", encoding="utf-8") as it:
            it.write(text)
        os.chmod(f"{at}/{path}", 0o755)
    return f"{at}/bin/rt"


def link_kit(at, rt):
    """Makes a toolchain of links to the real one, with this text of `rt`, and answers its folder of programs."""
    os.makedirs(f"{at}/bin")
    for name in os.listdir(kit()):
        if name != "bin":
            os.symlink(f"{kit()}/{name}", f"{at}/{name}")
    for name in os.listdir(f"{kit()}/bin"):
        if name not in ("rt", "rtlib.py"):
            os.symlink(f"{kit()}/bin/{name}", f"{at}/bin/{name}")
    # (they look for the other files beside themselves)
    shutil.copy(f"{kit()}/bin/rtlib.py", f"{at}/bin/rtlib.py")
    with open(f"{at}/bin/rt", "w", encoding="utf-8") as it:
        it.write(rt)
    os.chmod(f"{at}/bin/rt", 0o755)
    return f"{at}/bin"


# How `rt ci` shares the processors. Its own way gives a crate's proof as many processes as are idle when it begins. A crate keeps
# that number, so that one that began beside others is proved by one process, with the other processors idle at its end. And a
# crate begins only if a guess of its memory is free, which is three to six times what it takes. Here there are more processes than
# processors, and that guess is divided by 3.5. The crate for which the longest chain of others waits begins at once, with four
# processes, and each other one gets up to two, at a lower priority. The program is built by LLVM alone: the gate builds it by
# Rattle's own compiler too. These are the texts of the kits that are known, and what is there instead.
LONGEST = "behind[key] >= max(behind[it] for it in [key, *left, *(one for one, _, _ in running.values())])"
AT_NICE = """def at_nice(nice, call, *given):
    found = []

    def run():
        here = os.PRIO_PROCESS, threading.get_native_id()
        os.setpriority(*here, max(nice, os.getpriority(*here)))
        found.append(call(*given))

    by = threading.Thread(target=run)
    by.start()
    by.join()
    return found[0]


"""
SHARES = (
    # kit 13f
    (("lanes, memory, behind = fixed or processors(), 0.85 * free(),", "lanes, memory, behind = fixed or 2 * processors(), 3 * free(),"),
     ("if idle > 0 and (fixed", f"if (idle > 0 or key in proofs and {LONGEST}) and (fixed"),
     ("min(4, idle // others, 1 + int((room / needs - 1) / 0.6)) if not fixed",
      f"min(4 if {LONGEST} else 2, 1 + int((room / needs - 1) / 0.6)) if not fixed"),
     ("jobs = max(1, spare)", f"jobs, nice = max(1, spare), 0 if {LONGEST} else 10"),
     ("pool.submit(call, given, jobs)", "pool.submit(at_nice, nice, call, given, jobs)"),
     ("def in_lanes(tasks):", f"{AT_NICE}def in_lanes(tasks):"),
     (' or self.compile_by("rattle", words, to)', "")),
    # kit 13b
    (("lanes, memory, behind = fixed or processors(), 0.85 * free(),", f"lanes, memory, behind = fixed or max(1, min(processors() + 2, free() // {ONE_CHECK})), 10 ** 12,"),
     ("min(4, idle // (len(ready) - at), 1 + int((room / needs - 1) / 0.6))",
      f"min(4, idle if {LONGEST} else idle // (len(ready) - at))")),
)


def sharing(text):
    """The text of `rt` with another way to share processors, or the same text if its own way is none of these."""
    for replacements in SHARES:
        if all(text.count(theirs) == 1 for theirs, _ in replacements):
            for theirs, ours in replacements:
                text = text.replace(theirs, ours)
            return text
    return text


def rt_text():
    """The text of `rt`."""
    with open(command() or sys.exit("rt is not on the PATH"), encoding="utf-8") as it:
        return it.read()


def parents(path):
    """The folders above a path, up to the first, which is named ""."""
    above = os.path.dirname(path)
    return {above} | (parents(above) if above else set())


def load():
    """`rt` as a module; the one below it, with what it knows of crates, is its `rtlib`."""
    path = command() or sys.exit("rt is not on the PATH")
    loader = importlib.machinery.SourceFileLoader("rt", path)
    made = importlib.util.module_from_spec(importlib.util.spec_from_loader("rt", loader))
    sys.modules["rt"] = made
    loader.exec_module(made)
    # (the first call sets a signal's handler, which only the main thread may)
    made.rtlib.guarded()
    return made


def listed(path):
    """The names of a list of crates, each with its line."""
    lines = {}
    with open(path, encoding="utf-8") as it:
        for line in it:
            name = re.match(r"(\w+)[ :]", line)
            if name:
                lines[name[1]] = line.rstrip("\n")
    return lines


def folders():
    """The names of the folders of crates/."""
    return sorted(it for it in os.listdir(f"{TOP}/crates") if os.path.isdir(f"{TOP}/crates/{it}"))


def files_of(name, top=TOP):
    """The sources, definitions and proofs of a crate of this repository, or of a copy, by their paths in it."""
    found = []
    for part in ("src", "specs", "proofs"):
        for at, _, names in os.walk(f"{top}/crates/{name}/{part}"):
            found += [os.path.relpath(f"{at}/{it}", f"{top}/crates/{name}") for it in names]
    return sorted(found)


def as_rattle(path):
    """How a file of a crate of tests is named where `rt` is to read it."""
    return path[: -len(".rs")] + ".rt" if path.endswith(".rs") else path


def copy_tests(name, to):
    """Copies the sources of a crate of tests below a folder, under the names that `rt` reads."""
    for path in files_of(name):
        made = f"{to}/{as_rattle(path)}"
        os.makedirs(os.path.dirname(made), exist_ok=True)
        shutil.copy(f"{TOP}/crates/{name}/{path}", made)


def without_static(text):
    """The text of crates.txt without the static libraries. `rt ci` only checks these, and compiles none; tests/gate/bench does
    both."""
    return re.sub(r"(?m)^\w+ staticlib:.*\n", "", text)


def git(*words):
    """What git prints of this repository, or nothing if there is none."""
    ran = subprocess.run(["git", "-c", "safe.directory=*", "-C", TOP, *words], stdin=subprocess.DEVNULL, stdout=subprocess.PIPE,
                         stderr=subprocess.DEVNULL, text=True, check=False)
    return ran.stdout.strip() if ran.returncode == 0 else ""


def commit_of_sources():
    """The commit in which what the program is made from was changed last, and whether it was changed since."""
    with open(f"{TOP}/crates.txt", encoding="utf-8") as it:
        names = re.findall(r"(?m)^(\w+)[ :]", without_static(it.read()))
    made_from = ["crates.txt", "HANDLES", *(f"crates/{name}/{part}" for name in names for part in ("src", "specs", "proofs"))]
    commit = git("log", "-1", "--format=%H", "--", *made_from)
    if commit and git("status", "--porcelain", "--", *made_from):
        return f"{commit}, and changes"
    return commit or "not recorded"


def record_build(top):
    """Records in a copy, for `ipx --version --verbose`, which sources and toolchain its program is built with."""
    ran = subprocess.run(["rt", "version"], stdout=subprocess.PIPE, text=True, check=True)
    with open(f"{top}/{BUILD}", encoding="utf-8") as it:
        text = it.read()
    for name, value in (("COMMIT", commit_of_sources()), ("TOOLCHAIN", ran.stdout.strip())):
        text, count = re.subn(rf'(pub const {name}: &str = )"[^"]*"', lambda it, value=value: f'{it[1]}"{value}"', text)
        if count != 1:
            sys.exit(f"{BUILD} has {count} constants {name}, and not one")
    with open(f"{top}/{BUILD}", "w", encoding="utf-8") as it:
        it.write(text)


def copy_crates(to):
    """Copies the crates that `rt ci` proves, without what was built of them and without their wrong bodies. The copy has a record
    of its sources and toolchain."""
    leave = shutil.ignore_patterns("out", "must-fail", "wrong-bodies.txt")
    with open(f"{TOP}/crates.txt", encoding="utf-8") as it:
        text = without_static(it.read())
    os.makedirs(to, exist_ok=True)
    with open(f"{to}/crates.txt", "w", encoding="utf-8") as it:
        it.write(text)
    for name in listed(f"{to}/crates.txt"):
        shutil.copytree(f"{TOP}/crates/{name}", f"{to}/crates/{name}", ignore=leave)
    shutil.copy(f"{TOP}/HANDLES", to)
    record_build(to)


def free():
    """How much memory is free, in bytes."""
    with open("/proc/meminfo", encoding="utf-8") as it:
        return int(re.search(r"MemAvailable:\s+(\d+)", it.read())[1]) * 1024


def room():
    """How many more checks find memory."""
    return free() // ONE_CHECK


def held(pid):
    """How much memory a process holds, in bytes."""
    try:
        with open(f"/proc/{pid}/statm", encoding="utf-8") as it:
            return int(it.read().split()[1]) * os.sysconf("SC_PAGE_SIZE")
    except OSError:
        return 0
