"""What the repository has: its crates, its files, the definitions of `specs/`, and the items of the code.

`.ci/definitions` and `.ci/pages` read it. Nothing is parsed fully: files are laid out by `rt fmt`, so each head of a
definition or an item stands at the beginning of a line, and the indentation says what it belongs to.
"""
import re
from functools import cache
from pathlib import Path
from typing import NamedTuple

ROOT = Path(__file__).resolve().parent.parent

DEFINITION = re.compile(r'( *)(?:(abbrev|unfoldable) pub |pub (record |data )?)(?!mod |use )([^\s:(){}]+)')
BODY = re.compile(r'( *)(?:pub )?(?:record|data) ')
FIELD = re.compile(r' +(?:pub )?([a-z_]\w*) :')
COMMENT = re.compile(r' *--(?!-) ?(?!----)(.*)')


class Definition(NamedTuple):
    """A definition of a file in `specs/`. `form` is `abbrev`, `unfoldable`, `record`, `data`, or `lemma` for a plain
    `pub`; `words` is the comment above it, or nothing; `fields` are those of a record, or the cases of a type; `text`
    is what stands below the head."""
    name: str
    form: str
    words: str
    line: int
    fields: list[str]
    text: str


@cache
def read(path: Path) -> str:
    return path.read_text(encoding='utf-8', errors='replace')


@cache
def lines_of(path: Path) -> list[str]:
    return read(path).splitlines()


@cache
def files(root: Path) -> list[Path]:
    """All files below a folder, except what checks and version control write."""
    found = []
    for entry in sorted(root.iterdir()):
        if entry.is_dir() and entry.name not in ('out', '.git', '__pycache__'):
            found += files(entry)
        elif entry.is_file():
            found.append(entry)
    return found


def crates(root: Path) -> list[str]:
    """The names of all crates, in the order of `crates.txt`: each stands behind those that it uses."""
    named = [line.split(':')[0] for line in lines_of(root / 'crates.txt') if ':' in line]
    there = sorted(folder.name for folder in (root / 'crates').iterdir() if (folder / 'src').is_dir())
    return [name for name in named if name in there] + [name for name in there if name not in named]


def spec_files(root: Path, crate: str) -> list[Path]:
    """The files of `specs/` of a crate, in the order in which its `Lib.antt` names them."""
    folder = root / 'crates' / crate / 'specs'
    lib = folder / 'Lib.antt'
    modules = re.findall(r'^pub mod (\w+)', read(lib), re.M) if lib.exists() else []
    listed = [folder / f'{module}.antt' for module in modules]
    return listed + sorted(set(folder.glob('*.antt')) - set(listed) - {lib})


def head_words(path: Path) -> str:
    """The comment at the head of a file."""
    return comment_above(lines_of(path), len(leading_comment(lines_of(path))))


def leading_comment(lines: list[str]) -> list[str]:
    count = next((k for k, line in enumerate(lines) if not COMMENT.fullmatch(line)), len(lines))
    return lines[:count]


def comment_above(lines: list[str], at: int) -> str:
    """The lines of the comment directly above a line, as one."""
    words = []
    while at > 0 and (match := COMMENT.fullmatch(lines[at - 1])):
        words.insert(0, match[1].strip())
        at -= 1
    return ' '.join(words)


def depth(line: str) -> int:
    return len(line) - len(line.lstrip())


def below(lines: list[str], at: int) -> list[str]:
    """The lines that belong to the head at a line: those indented deeper, and the equations of its name."""
    end = at + 1
    while end < len(lines) and lines[end].strip() and not lines[end].lstrip().startswith('--'):
        end += 1
    if not BODY.match(lines[at]):
        return lines[at + 1:end]
    while end < len(lines) and (not lines[end].strip() or depth(lines[end]) > depth(lines[at])):
        end += 1
    return lines[at + 1:end]


@cache
def definitions(path: Path) -> list[Definition]:
    """The public definitions of a file, in its order. The fields of a record are none."""
    found, lines, body = [], lines_of(path), None
    for at, line in enumerate(lines):
        if body is not None and line.strip() and depth(line) <= body:
            body = None
        if body is None and (match := DEFINITION.match(line)):
            form = match[2] or (match[3] or 'lemma').strip()
            rest = below(lines, at)
            fields = [field[1] for field in map(FIELD.match, rest) if field] if form in ('record', 'data') else []
            found.append(Definition(match[4], form, comment_above(lines, at), at + 1, fields, '\n'.join(rest)))
        if body is None and BODY.match(line):
            body = depth(line)
    return found


# ---- the code

FUNCTION = re.compile(r' *(?:pub(?:\([a-z]+\))? )?(?:(?:const|final|unsafe|ghost) )*fn (\w+)')
OWNER = re.compile(r'(?:pub(?:\([a-z]+\))? )?(impl|trait|enum|struct)\b(.*)')
MEMBER = re.compile(r'    (?:ghost (\w+):|(?:pub )?const (\w+):|([A-Z]\w*)(?:,| \{|\()|(?:pub(?:\([a-z]+\))? )?(\w+):)')
CLAUSE = re.compile(r'^ *(?:ensures|requires)\*?\s*(\w+)?\s*\{', re.M)


class Function(NamedTuple):
    """A function of a `.rt` file. `owners` are the type and the trait whose `impl` has it; `clauses` has the text of
    each clause by its name, and of the clauses without one together under ''."""
    crate: str
    name: str
    owners: list[str]
    clauses: dict[str, str]


@cache
def code_files(root: Path) -> list[Path]:
    return [path for path in files(root / 'crates') if path.suffix == '.rt']


def crate_of(root: Path, path: Path) -> str:
    return path.relative_to(root / 'crates').parts[0]


def without_generics(text: str) -> str:
    """The text without what stands in angle brackets."""
    while (shorter := re.sub(r'<[^<>]*>', '', text)) != text:
        text = shorter
    return text


def owners_of(head: str) -> list[str]:
    """The types and traits that the head of an `impl`, a trait or a type names."""
    return re.findall(r'\b[A-Z]\w*', without_generics(head.replace('->', '')).split(' where ')[0].split(':')[0])


def braced(text: str, at: int) -> str:
    """What stands in the braces that open before this place."""
    level, end = 1, at
    while level and end < len(text):
        level += {'{': 1, '}': -1}.get(text[end], 0)
        end += 1
    return text[at:end - 1]


def clauses_in(text: str) -> dict[str, str]:
    found = {}
    for match in CLAUSE.finditer(text):
        found[match[1] or ''] = found.get(match[1] or '', '') + '{' + braced(text, match.end()) + '}'
    return found


def head_at(lines: list[str], at: int) -> str:
    """The head of an item that begins at a line: up to its brace or its semicolon."""
    end = next((k for k in range(at, len(lines)) if re.search(r'[{;]', lines[k])), at)
    return ' '.join(lines[at:end + 1])


def sections(path: Path) -> list[tuple[list[str], list[str]]]:
    """The lines of a file, cut at each `impl`, trait, type and end of one, with the owners of each part."""
    parts = [([], [])]
    lines = [line for line in lines_of(path) if not line.lstrip().startswith('//')]
    for at, line in enumerate(lines):
        if OWNER.match(line):
            parts.append((owners_of(OWNER.match(head_at(lines, at))[2]), []))
        parts[-1][1].append(line)
        if line == '}':
            parts.append(([], []))
    return parts


def functions(root: Path) -> list[Function]:
    found = []
    for path in code_files(root):
        for owners, lines in sections(path):
            starts = [at for at, line in enumerate(lines) if FUNCTION.match(line)]
            for at, end in zip(starts, starts[1:] + [len(lines)]):
                name = FUNCTION.match(lines[at])[1]
                found.append(Function(crate_of(root, path), name, owners, clauses_in('\n'.join(lines[at:end]))))
    return found


def members(root: Path) -> dict[str, set[str]]:
    """What stands in each type and trait beside its functions: ghost members, constants, variants and fields."""
    found, types = {}, set()
    for path in code_files(root):
        types.update(re.findall(r'^(?:pub(?:\([a-z]+\))? )?(?:enum|struct|trait|type) (\w+)', read(path), re.M))
        for owners, lines in sections(path):
            names = {name for line in lines if (match := MEMBER.match(line)) for name in match.groups() if name}
            for owner in owners:
                found.setdefault(owner, set()).update(names)
    return {name: found.get(name, set()) for name in types}


def traits(root: Path) -> set[str]:
    return {name for path in code_files(root)
            for name in re.findall(r'^(?:pub(?:\([a-z]+\))? )?trait (\w+)', read(path), re.M)}
