"""Whether the clauses that a document names stand where it says, for tools/check-docs.

An item of docs/PROVED.md ends in functions, each list of them followed by what carries the fact, in brackets:

    `residency::Core::{remap, forget}` (`rest`: `clock`; `ok`), `step` (`meets`: `Step`)

`rest` has to be a clause of one of these functions, and `clock` a name that this clause leads to: a field or a word of it, or of a record or definition that it cites.
Of a function whose only clause has no name, the names are its parts. It knows no scopes: a definition is looked up by its name alone, in all crates.
"""
import re

WORD = re.compile(r"[A-Za-z_][\w-]*")
FUNCTION = re.compile(r'^( *)(?:pub(?:\([^)]*\))? )?(?:(?:unsafe|const|extern "C") )*fn (\w+)', re.M)
CLAUSE = re.compile(r"^\s*(ensures|requires)\b\*?\s*(\w*)\s*\{", re.M)
DEFINITION = re.compile(r"^ *(?:pub |unfoldable )*(?:abbrev|record|data) (?:pub )?([A-Za-z_][\w-]*)", re.M)
GROUP = re.compile(r"((?:`[^`]+`[^`()]*)+)\(((?:`[^`]+`|[,;:.\s])+)\)")
QUOTED = re.compile(r"`([^`]+)`")
DEEP = 6  # how many definitions may lie between a clause and a name


def expanded(name):
    """`a::{b, c}::d` as `a::b::d` and `a::c::d`."""
    found = re.fullmatch(r"(.*?)\{([^{}]*)\}(.*)", name)
    return [whole for it in found[2].split(",") for whole in expanded(found[1] + it.strip() + found[3])] if found else [name]


def contracts(text):
    """The functions of a source: pairs of a name and what stands between it and its body."""
    places = list(FUNCTION.finditer(text))
    for place, found in enumerate(places):
        end = places[place + 1].start() if place + 1 < len(places) else len(text)
        head = text[found.end():end]
        body = re.search(rf"^{found[1]}\{{|;$", head, re.M)
        yield found[2], head[:body.start()] if body else head


def clauses(head):
    """The promises of a contract: pairs of a name, empty where there is none, and the words of the clause."""
    places = list(CLAUSE.finditer(head))
    for place, found in enumerate(places):
        end = places[place + 1].start() if place + 1 < len(places) else len(head)
        if found[1] == "ensures":
            yield found[2], set(WORD.findall(head[found.end():end]))


class Clauses:
    """The functions and the definitions of a tree."""

    def __init__(self, texts):
        self.functions, self.words, self.values, self.reached = {}, {}, set(), {}
        for path, text in texts.items():
            if re.fullmatch(r"crates/\w+/src/.*\.rt", path):
                for name, head in contracts(text):
                    self.functions.setdefault((path.split("/")[1], name), []).append(list(clauses(head)))
            elif re.fullmatch(r"crates/\w+/specs/.*\.antt", path):
                self.note_definitions(text)

    def note_definitions(self, text):
        """Notes what each definition of a file cites, and the fields that it has."""
        places = list(DEFINITION.finditer(text))
        for place, found in enumerate(places):
            end = places[place + 1].start() if place + 1 < len(places) else len(text)
            body = re.sub(r"--.*", "", text[found.end():end])
            self.words.setdefault(found[1], set()).update(WORD.findall(body))
            if re.search(r"= record \{$", body, re.M):
                self.values.add(found[1])

    def leads_to(self, words):
        """All names that words lead to, by way of relations and records, whose names begin with a capital, and of values that are records written out."""
        found, new = set(words), set(words)
        for _ in range(DEEP):
            new = set().union(*(self.words.get(it, ()) for it in new if it[0].isupper() or it in self.values)) - found
            found |= new
        return found

    def crates_of(self, item, known):
        """The crates in which an item may be a function: its own, or those that the items before it have named."""
        crate, _, rest = item.partition("::")
        return ([crate], rest) if crate in known else (None, item)

    def contracts_of(self, item, crates):
        """The contracts of what an item names: a function, or all functions of a type or of a crate."""
        known = {it for it, _ in self.functions}
        of, rest = self.crates_of(item, known)
        name = rest.split("::")[-1]
        places = of or crates
        named = [it for crate in places for it in self.functions.get((crate, name), [])]
        if not named and not of:
            named = [it for (_, other), found in self.functions.items() if other == name for it in found]
        if not named and (not rest or name[:1].isupper()):
            named = [it for (crate, _), found in self.functions.items() if crate in places for it in found]
        return named

    def is_there(self, contracts, clause, part):
        """Whether one of these contracts has a clause of that name, which leads to the part if there is one; or, where none has, one that leads to both."""
        rows = [it for contract in contracts for it in contract]
        named = [words for name, words in rows if name == clause]
        wanted = [it for whole in (part, "" if named else clause) if whole for it in whole.split(".")]
        return any(self.leads_to(words).issuperset(wanted) for words in named or (words for _, words in rows))

    def lost(self, text):
        """The names in brackets that do not stand in the functions before them."""
        crates = {it for it, _ in self.functions}
        for line in re.split(r"\n(?=- |#)", text):
            named = []
            for items, group in GROUP.findall(line):
                wholes = [it for quote in QUOTED.findall(items) if "/" not in quote for it in expanded(quote)]
                named += [it.partition("::")[0] for it in wholes if it.partition("::")[0] in crates]
                found = [it for whole in wholes for it in self.contracts_of(whole, dict.fromkeys(named))]
                if not found:
                    continue  # no function: a record, or a clause that many functions have
                for clause, parts in pairs(group):
                    yield from (f"{wholes[-1]} ({f'{clause}: ' * bool(part)}{part or clause})" for part in parts if not self.is_there(found, clause, part))


def pairs(group):
    """What stands in brackets: each clause with its parts, one that is empty where it has none. Parts stand behind a colon, up to a semicolon or the next clause that has
    some."""
    rows, is_part = [], False
    for name, mark in re.findall(r"`([^`]+)`\s*([,;:]?)", group):
        is_part = is_part and mark != ":"
        if is_part:
            rows[-1][1].append(name)
        else:
            rows.append((name, []))
        is_part = mark == ":" or is_part and mark != ";"
    yield from ((name, parts or [""]) for name, parts in rows)
