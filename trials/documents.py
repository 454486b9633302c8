"""What `documents.sh` looks at; its head says what. Usage: documents.py."""

import glob
import itertools
import os
import re
import subprocess
import sys
from collections.abc import Iterator

from sources import TOP, crates, files_of, functions_of, is_defined, layers, specs_called, text_of

os.chdir(TOP)
faults: list[str] = []

DOCUMENTS = ["README.md", "CHANGELOG.md", "CONTRIBUTING.md", "SECURITY.md", *sorted(glob.glob("docs/*.md")),
             "trials/README.md", "bench/README.md"]
DOCUMENTS = [it for it in DOCUMENTS if os.path.exists(it)]
# What stands in documents and in no source: programs of others, and words of systemd and of the toolchain.
OTHERS = set(
    """allow holes lemma satdump cpu goes_hrit goes_lrit baseband samplerate baseband_format s16 cadu perf stat gcc std
    clap byteorder jiff itoa atomic_table tail head pv nc netcat systemctl enable now journalctl daemon reload
    install usr local bin cmp pnmsplit pnmtopng pnmfile netpbm libfec libaec aec valgrind Restart
    RestartPreventExitStatus RuntimeMaxSec ExecStart mkfifo tee losetup strace rattle kit 13f rt must fail plant fmt
    tidy check anew jiff_core jiff_fmt stage times incremental Clock Recovery Symbol Sync Costas Loop Complex Real
    Float Char File Sink simd Lts Tie Proof lr_trials Display rx_sdr usermod plugdev""".split()
)
# What else than sources and scripts has names that documents cite.
ENDINGS = (".rt", ".antt", ".sh", ".py", ".c", ".rs", ".edit", ".service", ".txt")
NAMED = ("lritstation", "HANDLES", "run", "args")
FOLDERS = ("", "docs/", "crates/", "crates/*/", "crates/*/src/", "crates/*/specs/", "crates/*/proofs/", "trials/",
           "bench/", "reference/", "examples/", "crates/*/must-fail/", "tools/gomtasil/", "packaging/", "packaging/web/",
           "packaging/web/page/")


def all_files() -> Iterator[str]:
    for root, folders, names in os.walk("."):
        folders[:] = [it for it in folders if it not in ("out", ".git", "docs")]
        for name in names:
            if name.endswith(ENDINGS) or name in NAMED:
                yield os.path.join(root, name)[2:]


FILES = list(all_files())
WORDS = {word for path in FILES for word in re.findall(r"[A-Za-z_][A-Za-z0-9_]*", text_of(path))}
WORDS.update(os.path.basename(it).rsplit(".", 1)[0] for it in FILES)
PARTS = {it for path in FILES for it in path.split("/")}


def is_path(token: str) -> bool:
    """A name with a slash or with the ending of a file."""
    return re.fullmatch(r"[\w./*-]*/[\w./*-]*|[\w-]+\.(sh|py|md|rt|antt|c|rs|txt|edit|service)", token) is not None


def stands(token: str) -> bool:
    """Whether a file or folder of this name is there: from the top, beside the documents, or in a crate."""
    token = token.rstrip("/")
    for start in FOLDERS:
        for end in ("", ".antt", ".rt"):
            if glob.glob(start + token + end):
                return True
    # (what is made, what lies elsewhere, and names with a word in capitals, which stands for others)
    has_capitals = re.search(r"\b[A-Z]{4,}\b", token.replace("README", "")) is not None
    return token.startswith(("/", "..")) or "out/" in token or has_capitals


def look_at(document: str) -> None:
    text = re.sub(r"(?s)```.*?```", "", text_of(document))
    text = re.sub(r"(?m)^    .*$", "", text)
    for token in re.findall(r"`([^`\n]+)`", text):
        place = f"{document}: `{token}`"
        defined = re.fullmatch(r"([A-Z]\w*)\.([A-Za-z_][\w-]*)", token)
        if is_path(token):
            if not stands(token):
                faults.append(f"{place} is no file here")
        elif defined and specs_called(defined[1]):
            if not is_defined(defined[1], defined[2]):
                faults.append(f"{place}: {defined[2]} is defined in no specs/{defined[1]}")
        else:
            words = re.findall(r"[A-Za-z_][A-Za-z0-9_]*", re.sub(r"\\x\w\w", "", token))
            faults.extend(f"{place}: nothing is called {word}" for word in words if not is_called(word))


def is_called(word: str) -> bool:
    """Whether a word of a document is one of a source, of a path or of other programs, or too short to tell."""
    # (`.._of` stands for each name that ends so)
    if word.startswith("_") and any(it.endswith(word) for it in WORDS):
        return True
    return len(word) <= 2 or word == word.upper() or word in WORDS or word in OTHERS or word in PARTS


def look_at_edits() -> None:
    """An edit that CLAIMS names stands in one crate, or its crate is named with it."""
    for token in re.findall(r"`([\w/.-]+\.edit)`", text_of("docs/CLAIMS.md")):
        if len(found := glob.glob(f"crates/*/must-fail/{token}" if "/" not in token else f"crates/{token}")) > 1:
            faults.append(f"docs/CLAIMS.md: `{token}` stands in {len(found)} crates: say in which")


def commands() -> dict[str, dict[str, str]]:
    """The commands of FORMATS: of each name its options, each with its values."""
    found: dict[str, dict[str, str]] = {}
    known: dict[str, str] = {}
    for row in re.findall(r"(?m)^\| (`.*`) \| ", text_of("docs/FORMATS.md").split("\n| word |")[0]):
        for words in re.findall(r"`([^`]+)`", row.replace("\\|", "|").split(" | ")[0]):
            options = dict(re.findall(r"\[(--\w+) ([^\]]+)\]", words))
            known.update((name, values) for name, values in options.items() if values != "..")
            found[words.split()[0]] = {name: known.get(name, "") if it == ".." else it for name, it in options.items()}
    return found


def look_at_help() -> None:
    """The options in the help of the wrapper are those of FORMATS, and the commands there those of the help."""
    text, found = text_of("lritstation"), commands()
    told: dict[str, dict[str, str]] = {}
    for option, values, names in re.findall(r"(?m)^  (--\w+) (\S+) +(.*)$", text):
        for name in names.split(", "):
            told.setdefault(name, {})[option] = values
    for name in sorted(found.keys() | told.keys()):
        if found.get(name, {}) != told.get(name, {}):
            faults.append(
                f"lritstation: the help gives {name} {told.get(name, {})}, and docs/FORMATS.md {found.get(name, {})}"
            )
    named = re.findall(r"(?m)^  ([a-z]+(?:, [a-z]+)*) (?:.*? )??  +\w", text.split("usage: ")[1])
    if sorted(" ".join(named).replace(",", "").split()) != sorted(found):
        listed = " ".join(found)
        faults.append(f"lritstation: the help has the commands {' '.join(named)}, and docs/FORMATS.md {listed}")


def look_at_writers() -> None:
    """The commands that the wrappers and the module for Python take for writers are those of the definition."""
    text = text_of("crates/lr_words/specs/Shapes.antt")
    shapes = dict(re.findall(r'\(codes "(\w+)"\)\s+then Some \(?([\w ]+?)\)?\s*$', text, re.M))
    writing = set(re.findall(r"(?m)^can_write \(?([\w ]+?)\)? = true", text))
    wanted = {name for name, shape in shapes.items() if shape in writing}
    told = set(re.findall(r"(?m)^    ([a-z |]+)\) return 0 ;;$", text_of("packaging/words.sh"))[0].split(" | "))
    module = set(re.findall(r'"(\w+)"', re.findall(r"(?m)^WRITERS = .*$", text_of("tools/gomtasil/embedded.py"))[0]))
    for path, found in (("packaging/words.sh", told), ("tools/gomtasil/embedded.py", module)):
        if found != wanted:
            faults.append(f"{path}: the commands that may write are {' '.join(sorted(wanted))}")


def look_at_version() -> None:
    """What pip installs has the version of CHANGELOG's newest heading with a number."""
    newest = re.findall(r"(?m)^## ([0-9][0-9.]*) ", text_of("CHANGELOG.md"))[0]
    if f'version = "{newest}"' not in text_of("pyproject.toml").splitlines():
        faults.append(f"pyproject.toml: the version is {newest}")


def look_at_layers() -> None:
    """In crates.txt a crate stands after those that it uses; the table of ARCHITECTURE has the same layers."""
    found, above = crates(), set[str]()
    for name, libraries in found.items():
        for library in libraries:
            if library in found and library not in above:
                faults.append(f"crates.txt: {name} stands before {library}, which it uses")
        above.add(name)
    wanted = [(layer.heading, list(layer.crates)) for layer in layers()]
    told: list[tuple[str, list[str]]] = []
    for head, names in re.findall(r"(?m)^\| ([^|]*)\| (`lr[^|]*) \|", text_of("docs/ARCHITECTURE.md")):
        if head.strip():
            told.append((head.strip(), []))
        told[-1][1].extend(re.findall(r"`(lr\w+)`", names))
    none: tuple[str, list[str]] = ("", [])
    for true, page in itertools.zip_longest(wanted, told, fillvalue=none):
        if true != page:
            faults.append(f"docs/ARCHITECTURE.md: the layer '{true[0]}' has {' '.join(true[1])}, "
                          f"not '{page[0]}': {' '.join(page[1])}")


def below(name: str, found: dict[str, list[str]], seen: set[str]) -> set[str]:
    for it in found.get(name, []):
        if it in found and it not in seen:
            seen.add(it)
            below(it, found, seen)
    return seen


def look_at_numbers() -> None:
    needed = len(below("lr_program", crates(), {"lr_program"}))
    for document, shape in (("README.md", r"proves (\d+) crates"), ("docs/CI.md", r"(\d+) crates of the program")):
        for told in re.findall(shape, text_of(document)):
            if int(told) != needed:
                faults.append(f"{document}: the crates of the program are {needed}, not {told}")


def look_at_comments() -> None:
    for path in files_of():
        if "/src/" in path and path.endswith(".rt"):
            faults.extend(f"{path}:{it.number}: a public function without a doc comment" for it in functions_of(path)
                          if it.is_marked and not it.comment)


def look_at_columns() -> None:
    """No line of a source or of prose has more than 120 columns. Tables and examples of documents may, and a line of a
    proof with the name of a goal that fills it."""
    for path in files_of():
        if path.split("/")[2] in ("src", "specs", "proofs"):
            long = [number for number, line in enumerate(text_of(path).splitlines(), 1)
                    if len(line) > 120 and max(map(len, line.split())) <= 100]
            faults.extend(f"{path}:{number}: more than 120 columns" for number in long)
    for document in DOCUMENTS:
        for number, line in enumerate(text_of(document).splitlines(), 1):
            if len(line) > 120 and not line.startswith(("|", "    ", "<")):
                faults.append(f"{document}:{number}: more than 120 columns")


def anchors_of(document: str) -> set[str]:
    """The anchors of a page's headings, as they are made of the heading's words."""
    headings = re.findall(r"(?m)^#+ (.*)$", text_of(document))
    return {re.sub(r"[^\w\- ]", "", heading.lower()).replace(" ", "-") for heading in headings}


def look_at_links(document: str) -> None:
    """Each link of a page leads to a file that is here, and to a heading that it has."""
    text = re.sub(r"(?s)```.*?```|`[^`\n]*`", "", text_of(document))
    for target in re.findall(r"\]\(([^)\s]+)\)", text):
        if re.match(r"\w+:", target):
            continue
        path, _, anchor = target.partition("#")
        page = os.path.normpath(os.path.join(os.path.dirname(document), path)) if path else document
        if not os.path.exists(page):
            faults.append(f"{document}: the link to {target} leads nowhere")
        elif anchor and anchor not in anchors_of(page):
            faults.append(f"{document}: {page} has no heading for the link to {target}")


def look_at_messages() -> None:
    """Each commit since the first one of this form says where it changes something, and then what and why. Outside of
    a repository, and where it lacks that commit, nothing is looked at."""
    since = os.environ.get("MESSAGES_SINCE", "114ce88f")
    command = ["git", "log", "--no-merges", "--format=%h %s", f"{since}..HEAD"]
    try:
        done = subprocess.run(command, capture_output=True, text=True)
    except OSError:
        return
    for line in done.stdout.splitlines() if done.returncode == 0 and os.path.exists(".git") else ():
        commit, _, message = line.partition(" ")
        if not re.fullmatch(r"[\w./*-]+(, [\w./*-]+)*: .{1,120}", message) or re.search(r"(?i)\bwip\b", message):
            faults.append(f"commit {commit}: '{message}' isn't of the form 'crate or folder, ..: what and why'")


for document in DOCUMENTS:
    look_at(document)
    look_at_links(document)
look_at_edits()
look_at_help()
look_at_writers()
look_at_version()
look_at_columns()
look_at_messages()
look_at_layers()
look_at_numbers()
look_at_comments()
for it in faults:
    print(f"trials/documents.sh: {it}")
print(f"trials/documents.sh: {len(DOCUMENTS)} documents, {len(faults)} faults")
sys.exit(1 if faults else 0)
