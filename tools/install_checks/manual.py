"""The manual page and the completion: in step with what the program's help says, and the examples print what the page
says."""
import re
import shutil
import subprocess

OPTION = re.compile(r"(?<![\w-])--?[A-Za-z][a-z-]*")
HELP = {"-h", "--help"}


def helped(program, *words):
    return subprocess.run([*program, "help", *words], stdout=subprocess.PIPE, text=True, check=True).stdout


def verbs_of(program):
    """The verbs that the help names in its usage, and what its other words there are."""
    usage = helped(program).split("\n\n")[0]
    return sorted(set(re.findall(r"columns ([a-z]+)\b", usage))), set(OPTION.findall(usage))


def options_of(program, verb):
    """The options of a verb, in its usage and in the lines that say what each does."""
    page = helped(program, verb)
    lines = [line for line in page.splitlines() if re.match(r"usage:|       columns |  -", line)]
    return {word for line in lines for word in OPTION.findall(line.split("   ")[0] if line[:3] == "  -" else line)}


def sections(page):
    """The subsections of the manual page, each by its name."""
    parts = re.split(r"^\.S[hs] (.*)$", page, flags=re.M)
    return dict(zip(parts[1::2], parts[2::2]))


def flags_in(text):
    """The options that a text of the manual page names, by its own marks."""
    found = set()
    for line in re.findall(r"^\.(?:.* )?Fl .*", text, flags=re.M):
        words = re.split(r"\bFl\b", line)[1:]
        found |= {"-" + flag for word in words for flag in re.findall(r"-?[A-Za-z][a-z-]*", word)[:1]}
        # `.Fl H , Fl j` has a mark before each; a mark holds on behind a comma.
        found |= {"-" + flag for word in words for flag in re.findall(r", (-?[A-Za-z][a-z-]*)", word)}
    return found


def completed(script, *words):
    """What the completion offers for the last of the words."""
    text = 'source "$1"; shift; COMP_WORDS=(columns "$@"); COMP_CWORD=$#; _columns; printf "%s\\n" "${COMPREPLY[@]}"'
    said = subprocess.run(["bash", "-c", text, "-", script, *words], stdout=subprocess.PIPE, text=True, check=True)
    return set(said.stdout.split())


def in_step(checks, program, page, script):
    verbs, words = verbs_of(program)
    parts, synopsis = sections(page), sections(page)["SYNOPSIS"]
    checks.that("the help names verbs", len(verbs) >= 10, str(verbs))
    offered = completed(script, "")
    checks.same("the completion's verbs", {word for word in offered if word[0] != "-"}, set(verbs))
    checks.same("the completion's options before a verb", offered - set(verbs), HELP | {"--version"})
    checks.that("the manual's words before a verb", HELP | {"--version"} <= flags_in(synopsis), synopsis)
    checks.same("the manual's options", flags_in(page), words | HELP)
    for verb in verbs:
        checks.that(f"the manual's usage of {verb}", f"\n.Cm {verb}\n" in synopsis)
        checks.that(f"the manual has a part for {verb}", verb in parts)
        if verb == "help":
            checks.same("the completion behind help", completed(script, "help", ""), set(verbs) - {"help"})
            continue
        options = options_of(program, verb)
        checks.same(f"the manual's options of {verb}", flags_in(parts.get(verb, "")), options)
        usage = "".join(part for part in synopsis.split(".Nm\n") if part.startswith(f".Cm {verb}\n"))
        checks.same(f"the manual's usage of {verb}", flags_in(usage), options)
        checks.same(f"the completion's options of {verb}", completed(script, verb, "-"), options | HELP)


def numbers_in_step(checks, page, root):
    """The manual has each number that the program has a sentence for, and no other."""
    header = (root / "include/fascjoldi.h").read_text()
    source = "".join((root / "bindings" / "columns" / name).read_text() for name in ("result.c", "renumber.c"))
    number_of = dict(re.findall(r"FASCJOLDI_(\w+) = (\d+),", header))
    said = {number_of[name] for name in re.findall(r"FASCJOLDI_(\w+)\b", source) if name in number_of} - {number_of["DONE"]}
    listed = re.findall(r"^\.It (\d+)$", sections(page)["DIAGNOSTICS"], flags=re.M)
    checks.same("the manual's numbers of refusals", listed, sorted(said, key=int))


def files_are_offered(checks, script, folder):
    place = folder / "names"
    place.mkdir()
    for name in ("a.col", "b.txt"):
        (place / name).touch()
    (place / "deeper").mkdir()
    offered = completed(script, "check", f"{place}/")
    checks.same("the files that are offered", offered, {f"{place}/a.col", f"{place}/deeper"})
    checks.same("behind --", completed(script, "check", "--", f"{place}/a"), {f"{place}/a.col"})
    checks.same("a number is not completed", completed(script, "check", "-j", ""), set())


def is_clean(checks, file):
    """Where a program that lays manual pages out is there, it has nothing to complain of."""
    for command in (["mandoc", "-T", "lint"], ["groff", "-mdoc", "-ww", "-Tascii", "-z"]):
        if not shutil.which(command[0]):
            checks.left_out(f"the manual page through {command[0]}, which is not here")
            continue
        said = subprocess.run([*command, file], capture_output=True, text=True)
        clean = said.returncode == 0 and said.stdout == said.stderr == ""
        checks.that(f"{command[0]} takes the manual page", clean, str(said))


def examples(checks, page, folder, path):
    """Each command of the examples prints what stands below it, one after the other in one folder."""
    place = folder / "examples"
    place.mkdir()
    text = sections(page)["EXAMPLES"]
    shown = "".join(re.findall(r"^\.Bd .*\n((?:.*\n)*?)\.Ed$", text, flags=re.M))
    found = re.findall(r"^\$ (.*)\n((?:[^$].*\n)*)", shown, flags=re.M)
    checks.that("the manual has examples", len(found) >= 10, str(found))
    there = {"PATH": f"{path}:/usr/bin:/bin"}
    for command, printed in found:
        said = subprocess.run(["bash", "-c", f"exec 2>&1; {command}"], cwd=place, env=there, stdout=subprocess.PIPE)
        checks.same(f"example: {command}", said.stdout.decode(), printed)
