#!/usr/bin/env python3
"""Writes DEFINITIONS.md from the definitions themselves.

    docs/definitions.py [DIRECTORY]    into a directory, or out/docs/
    docs/definitions.py --check        writes nothing, and fails if a definition that the page lists
                                       has no sentence, or if the contract of a public call names a
                                       definition of specs/inside, which are for private contracts
                                       and proofs

Each crate's specs/ has one file a subject. The comment at its head says what it is about and where
it comes from; the comment above a definition says what it is. The page lists those that public
contracts cite, those that these name, and those that the latter name if the cited one is a record
of them, by the section of the manual that they come from, each with its file and with the calls
that cite it.
"""

import os
import re
import sys

sys.path.append(os.path.join(os.path.dirname(os.path.dirname(os.path.abspath(__file__))), "build"))
from crates import read_crates  # noqa: E402
from repository import TOP  # noqa: E402

# where `make docs` puts the pages that are made
DIRECTORY = os.path.join(TOP, "out", "docs")
PAGE = "DEFINITIONS.md"
HEAD = """# Definitions

The definitions in the contracts of public calls, and those that they use, as `make docs` lists them
from `crates/*/specs`: the name of each, its meaning, and the calls and laws whose contracts name it
(none: another definition does). They are under the section of the manual that they come from, or
under "own" if this project chose. Definitions that only proofs use are not listed.

Most are cases, relations, sets or laws; a law shows that a relation is determined. Some compute
over a text as the code does, and a law states their result:
`reading_of_text`, `block_items` (`one_reading`); `statement_of` (`one_reading`);
`source_refusal` (`sources_have_one_refusal`); `column_offset`
(`columns_have_one_offset`); `width` (`widths_are_utf16`); `position_of`
(`places_are_measured`, `positions_are_inverse`); `line_start` (`lines_have_one_start`);
`diagnostics_of` (`diagnostics_are_the_faults`); `decider_in` (`deciders_are_found`);
`sources_from` (`sources_own_their_names`); `field_of`, `names_of`, `items_after`,
`folded_of` (`parts_are_computed`, `one_folding_at`). `number_after`, `spot_from`,
`line_of`, `indent`, `step_over`, `without_end`, `begins_with` and `is_open`, which are
a few lines each, have no law of their own.
"""
MANUALS = ["X/Open Curses Issue 7", "terminfo(5)", "term(5)", "tic(1)", "infocmp(1)", "tput(1)", "clear(1)", "toe(1)", "printf(3)"]
OWN = "Own"
NAME = r"[^\s:(){},.;]+"
STARTS = re.compile(
    rf"^(?:(?:  )?(?:abbrev pub|pub abbrev|unfoldable pub|pub unfoldable|pub data|pub record)|pub)\s+(?!use\b|mod\b|data\b|record\b)({NAME})(?=[\s:({{])"
)


def lines_of(path):
    with open(path, encoding="utf-8") as file:
        return file.read().split("\n")


def sentence(comment):
    rows = (re.sub(r"^--   (\S.*?)\s{2,}(.*)$", r"-- `\1`: \2;", line.strip()) for line in comment)
    text = " ".join(re.sub(r"^--\s?", "", row).strip() for row in rows).strip()
    text = text.replace("|", "\\|")
    return text[:1].upper() + text[1:] if text else ""


def source(head):
    """The section of the manual that a file's head names first, or "own"."""
    at = [(head.find(manual), manual) for manual in MANUALS if manual in head]
    if not at:
        return OWN
    place, manual = min(at)
    after = re.match(r',\s+"([^"]+)"', head[place + len(manual) :])
    section = after or re.search(r'under "([^"]+)"', head)
    return f'{manual}, "{section[1]}"' if section else manual


def words_of(lines):
    """The words of a definition's lines, without their comments."""
    text = "\n".join(line.split("-- ")[0] for line in lines)
    return set(re.findall(r"[^\s(){}\[\],;.:=λ→×↔≡¬]+", text))


def names_in_reach(path, crate, name):
    """The definitions that a file can name by a bare word: those that it imports."""
    found = {}
    text = "\n".join(lines_of(path))
    uses = r"^(?:unfoldable )?(?:pub )?use Rattle\.(\w+\.specs\.[\w.]+)\.\{([^}]*)\}"
    for of, words in re.findall(uses, text, re.M):
        for part in words.split(","):
            found[part.strip().split(" as ")[-1]] = (of, part.strip().split(" as ")[0])
    return found


def definitions(path):
    """The head of a file of definitions, and its definitions: name, comment and lines of each."""
    head, comment, found, seen = [], [], [], set()
    at_head, code_since = True, False
    for line in lines_of(path):
        if line.startswith("-- ----"):
            comment, code_since = [], False
        elif line.startswith("--") or line.startswith("  --"):
            if code_since:
                comment, code_since = [], False
            (head if at_head else comment).append(line)
        elif line.strip() == "":
            if not at_head and code_since:
                comment, code_since = [], False
        else:
            at_head = False
            start = STARTS.match(line)
            if start and start[1] not in seen:
                seen.add(start[1])
                found.append((start[1], sentence(comment), []))
                comment = []
            if found:
                found[-1][2].append(line)
            code_since = True
    return sentence(head), found


def exported(crate):
    """The names that the crate's root file makes public, those of its public modules among them."""
    source = os.path.join(TOP, "crates", crate, "src")
    root = "\n".join(lines_of(os.path.join(source, "lib.rt")))
    found = set()
    texts = [root]
    for module in re.findall(r"^pub mod (\w+);", root, re.M):
        text = "\n".join(lines_of(os.path.join(source, module + ".rt")))
        found |= set(re.findall(r"^pub (?:const )?(?:fn|struct|enum|trait) (\w+)", text, re.M))
        texts.append(text)
    for names in re.findall(r"^pub use [\w:]*?(?:::)?(\{[^}]*\}|\w+);", "\n".join(texts), re.M):
        found |= set(re.findall(r"\w+", names))
    return found


def contracts(crate):
    """The public calls of a crate, each with the definitions that its contract names."""
    found = []
    if not os.path.isfile(os.path.join(TOP, "crates", crate, "src", "lib.rt")):
        return found
    public = exported(crate)
    for at, _, names in os.walk(os.path.join(TOP, "crates", crate, "src")):
        for name in sorted(names):
            if not name.endswith(".rt") or name == "tests.rt":
                continue
            text = "\n".join(lines_of(os.path.join(at, name)))
            text = re.split(r"^#\[cfg\(test\)\]\n(?:#.*\n)*mod \w+ \{", text, flags=re.M)[0]
            known = set()
            for path, words in re.findall(r"ghost use Rattle\.(\w+\.specs\.[\w.]+?)\.\{([^}]*)\};", text):
                known |= {(path, word.strip()) for word in words.split(",")}
            short = dict(re.findall(r"ghost use Rattle\.(\w+\.specs\.[\w.]+) as (\w+);", text))
            short = {name: path for path, name in short.items()}
            owner, is_trait = "", False
            # A contract ends at the body: on a line of its own, or, if there is no clause, at the
            # end of the signature.
            forms = r"^impl[^{\n]*|^pub trait (\w+)|^(?: {4})?(?:pub (?:const )?)?fn (\w+)(.*?)(?=^ {0,4}\{|[;{]$)"
            for part in re.finditer(forms, text, re.M | re.S):
                if part[0].startswith("impl"):
                    of = re.search(r"(?:for )?(\w+)(?:<[^>]*>)?\s*$", part[0].split(" where")[0].strip())
                    owner, is_trait = of[1] if of else "", " for " in part[0]
                    continue
                if part[1]:
                    owner, is_trait = part[1], True
                    continue
                is_method = part[0].startswith("    ")
                is_public = part[0].lstrip().startswith("pub") or (is_method and is_trait)
                if not is_public or (owner if is_method else part[2]) not in public:
                    continue
                words = set(re.findall(r"[^\s(){},;]+", part[3]))
                cited = {(path, word) for path, word in known if word in words}
                parts = [word.split(".") for word in words]
                cited |= {(short[dotted[0]], dotted[1]) for dotted in parts if len(dotted) > 1 and dotted[0] in short}
                found.append((f"{owner}::{part[2]}" if is_method else part[2], cited))
    return found


def files_of(crate):
    """The files of a crate's definitions, by name; those of the directory inside/ come last."""
    found = []
    for inside in ("", "inside"):
        directory = os.path.join(TOP, "crates", crate, "specs", inside)
        names = sorted(os.listdir(directory)) if os.path.isdir(directory) else []
        names = [file for file in names if file.endswith(".antt") and file != "Lib.antt"]
        found += [(f"{inside}.{file[:-5]}".lstrip("."), os.path.join(directory, file)) for file in names]
    return found


def homes():
    """Where a name that a file makes public for another one is defined, by file and name; by the
    file alone if Lib.antt makes all of another crate's file public."""
    given = {}
    for crate in read_crates():
        root = os.path.join(TOP, "crates", crate, "specs", "Lib.antt")
        if os.path.isfile(root):
            whole = re.findall(r"^pub use Rattle\.(\w+\.specs)\.(\w+)$", "\n".join(lines_of(root)), re.M)
            given.update({f"{crate}.specs.{name}": f"{of}.{name}" for of, name in whole})
        for name, path in files_of(crate):
            text = "\n".join(lines_of(path))
            uses = r"^(?:unfoldable )?pub use Rattle\.(\w+\.specs\.[\w.]+)\.\{([^}]*)\}"
            for of, words in re.findall(uses, text, re.M):
                given.update({(f"{crate}.specs.{name}", word.strip()): (of, word.strip()) for word in words.split(",")})
    return given


def home_of(definition, given):
    at, word = definition
    while at in given or (at, word) in given:
        at, word = given[at, word] if (at, word) in given else (given[at], word)
    return at, word


def in_order(section):
    manual = next((i for i, manual in enumerate(MANUALS) if section.startswith(manual)), len(MANUALS))
    return manual, section


def page():
    order = list(read_crates())
    users, given = {}, homes()
    for crate in order:
        for call, cited in contracts(crate):
            for definition in cited:
                users.setdefault(home_of(definition, given), []).append(f"`{call}`")
    files, named, below = {}, set(), {}
    in_records = set()
    for crate in sorted(order):
        for name, path in files_of(crate):
            head, found = definitions(path)
            at = f"{crate}.specs.{name}"
            files[at] = (crate, name, head, found)
            reach = names_in_reach(path, crate, name)
            reach.update({word: (at, word) for word, _, _ in found})
            for word, _, lines in found:
                below[at, word] = {home_of(reach[used], given) for used in words_of(lines) if used in reach}
                if (at, word) in users:
                    named |= below[at, word]
                    if lines[0].lstrip().startswith("pub record"):
                        in_records |= below[at, word]
    named |= {definition for of in in_records for definition in below.get(of, ())}
    out, sections, rules = [HEAD], {}, []
    for at, (crate, name, head, found) in files.items():
        rows = [(word, says) for word, says, _ in found if (at, word) in users or (at, word) in named]
        if rows:
            sections.setdefault(source(head), []).append((at, crate, name, head, rows))
    for section in sorted(sections, key=in_order):
        out.append(f"## {section}\n")
        for at, crate, name, head, rows in sections[section]:
            path = f"crates/{crate}/specs/{name.replace('.', '/')}.antt"
            rules.append((section, head, path))
            out.append(f"### {name.replace('.', '/')} (`{crate}`)\n\n`{path}`. {head}\n")
            out.append("| Definition | Says | Cited by |\n|---|---|---|")
            for word, says in rows:
                calls = dict.fromkeys(users.get((at, word), []))
                out.append(f"| `{word}` | {says} | {', '.join(calls)} |")
            out.append("")
    out.append("## The file of each rule\n\n| Manual | Rule | File |\n|---|---|---|")
    out += [f"| {section} | {head} | `{path}` |" for section, head, path in rules]
    return "\n".join(out).rstrip() + "\n"


def misplaced():
    """The definitions of inside/ that the contract of a public call names."""
    order = list(read_crates())
    given = homes()
    calls = [row for crate in order for row in contracts(crate)]
    found = {(call, home_of(definition, given)) for call, cited in calls for definition in cited}
    return sorted(f"{call} names {at}.{word}" for call, (at, word) in found if ".inside." in at)


def unsaid(text):
    """The definitions of the page that say nothing."""
    return re.findall(r"^\| `([^|]*)` \|  \|", text, re.M)


def main():
    text = page()
    if "--check" in sys.argv[1:]:
        inside = misplaced()
        for definition in inside:
            print(f"specs/inside: {definition}")
        silent = unsaid(text)
        for definition in silent:
            print(f"no comment says what {definition} is")
        is_good = not inside and not silent
        print("docs: 1 passed, 0 failed" if is_good else "docs: 0 passed, 1 failed")
        return 0 if is_good else 1
    directory = sys.argv[1] if len(sys.argv) > 1 else DIRECTORY
    os.makedirs(directory, exist_ok=True)
    with open(os.path.join(directory, PAGE), "w", encoding="utf-8") as file:
        file.write(text)
    return 0


if __name__ == "__main__":
    sys.exit(main())
