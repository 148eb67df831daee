"""The rows of whole patterns that `.ci/bindings` asks, and the lines that ask them of its programs."""
import json
import os

DATA = f"{os.path.dirname(os.path.dirname(os.path.abspath(__file__)))}/crates/bench/data"
FILES = ("pattern", "rows", "custom_patterns", "hostile", "first_match", "link", "covers", "meaning", "texts", "generate")
COMPONENTS = ("protocol", "username", "password", "hostname", "port", "pathname", "search", "hash")
NO_MATCH, DONE, REFUSED, OUT_OF_MEMORY, NO_PATTERN, UNKNOWN = 0, 1, 6, 7, 8, 10


def is_asked(question):
    """Whether C can ask it: by the engine and in the syntax that it has, of a pattern and not of its pieces, and of values as they are."""
    options = question.get("options", {})
    return not {"by", "through", "engine", "encoded"} & question.keys() and options.get("regexSyntax", "Rust") == "Rust"


def rows():
    """The questions about whole patterns, with their answers by this project's engine."""
    for name in FILES:
        with open(f"{DATA}/{name}.jsonl", encoding="utf-8") as lines:
            for line in lines:
                row = json.loads(line)
                if row["in"]["op"] in ("pattern", "first_match", "link", "covers", "meaning", "text", "generate") and is_asked(row["in"]):
                    yield row["in"], row.get("out_pattern", row["out"])


def is_init(given):
    """Whether what is matched is an init, and no base URL beside it."""
    return "init" in given and "base" not in given


def is_askable(row):
    """Whether its patterns are constructor strings, or it is of inits alone, and each is accepted where it is asked for its first match;
    of two patterns that are compared, whether C can ask for each."""
    question, answer = row
    if question["op"] == "meaning":
        return is_asked(question["pattern"])
    if question["op"] in ("text", "generate"):
        return "ok" in answer and not ("init" in question and "base" in question)
    if question["op"] == "covers":
        return all(is_asked(question[it]) and not ("init" in question[it] and "base" in question[it]) for it in ("pattern", "asked"))
    if question["op"] != "first_match":
        return "string" in question or ("init" in question and "base" not in question)
    return "ok" in answer and bool(question["patterns"]) and all("string" in it and is_asked(it) for it in question["patterns"])


def ignores(question):
    return bool(question.get("options", {}).get("ignoreCase"))


def compact(tree):
    return json.dumps(tree, ensure_ascii=False, separators=(",", ":"), sort_keys=True)


def lacking_by_case(answer):
    """The components without a meaning over `PatternRegexp`: those without one over any engine, if the row does not say otherwise."""
    return answer["ok"].get("lackingByCase", answer["ok"]["lacking"])


def line(word, *parts):
    """A line for the C program."""
    spelled = (str(it) if isinstance(it, int) else it.encode().hex() or "-" for it in parts)
    return " ".join([word, *spelled])


def adding(word, question, status):
    if "init" in question:
        word = "init" if word == "add" else f"{word}_init"
        return " ".join([word, str(status), "01"[ignores(question)], compact(question["init"]).encode().hex()])
    return " ".join([word, str(status), "01"[ignores(question)], *(it.encode().hex() or "-" for it in (question["string"], question.get("base", "")))])


def groups_text(found):
    """The groups of a match, as the C program compares them."""
    groups = ((at, *group) for at, name in enumerate(COMPONENTS) for group in found[name]["groups"].items())
    return "".join(f"\x01{at}{name}\x02{'' if text is None else '+' + text}\x03" for at, name, text in groups)


def linking(groups, answer, of=None):
    """A line that asks for the URL with these groups, or for the text of a component."""
    text, numbers = b"", []
    for component, name, value in groups:
        name, value = name.encode(), value.encode()
        numbers += [COMPONENTS.index(component), len(text), len(name), len(text) + len(name), len(value)]
        text += name + value
    made = answer.get("url", answer.get("text"))
    words = text.hex(), ",".join(map(str, numbers)), (made or "").encode().hex()
    asked = ["link"] if of is None else ["generate", COMPONENTS.index(of)]
    return " ".join(map(str, [asked[0], REFUSED if made is None else DONE, *(it or "-" for it in words), *asked[1:]]))


def comparing(question, answer):
    """Lines that ask whether a pattern covers another one, of the same handle and of another."""
    yield adding("add", question["pattern"], DONE)
    yield from (adding(word, question["asked"], DONE) for word in ("more", "other"))
    found = answer["ok"]["covers"]
    if found == "covered":
        status, component = DONE, len(COMPONENTS)
    else:
        status = NO_MATCH if "component" in found else UNKNOWN
        component = COMPONENTS.index(found.get("component", found.get("unknown")))
    overlap = answer["ok"]["overlaps"]
    overlaps = NO_MATCH if overlap == "apart" else UNKNOWN if isinstance(overlap, dict) else DONE
    yield line("covers", status, component, overlaps)


def lines_of(question, answer):
    """What the C program is asked for a row."""
    if question["op"] == "covers":
        yield from comparing(question, answer)
        return
    if question["op"] == "meaning":
        yield adding("add", question["pattern"], DONE)
        yield line("meaning", NO_MATCH if lacking_by_case(answer) else DONE)
        return
    if question["op"] == "generate":
        yield adding("add", question, DONE)
        yield linking(question["groups"], answer["ok"], question["component"])
        return
    if question["op"] == "text":
        text = answer["ok"]["text"]
        yield adding("add", question, DONE)
        yield line("whole", NO_MATCH if text is None else DONE, int(ignores(question)), text or "")
        return
    if question["op"] == "link":
        if "groups" in question:
            yield adding("add", question, DONE)
            yield linking(question["groups"], answer["ok"])
        return
    if question["op"] == "first_match":
        patterns = question["patterns"]
        yield from (adding("more" if at else "add", it, DONE) for at, it in enumerate(patterns))
        for given, found in zip(question["inputs"], answer["ok"]["results"]):
            status, index = DONE if found else NO_MATCH, found["index"] if found else 0
            if "string" in given:
                yield line("first", status, given["string"], given.get("base", ""), index)
            elif is_init(given):
                yield line("first_init", status, compact(given["init"]), index)
        return
    yield adding("add", question, DONE if "ok" in answer else REFUSED)
    if "ok" in answer:
        yield from (line("text", at, answer["ok"][name]) for at, name in enumerate(COMPONENTS))
        yield line("custom", DONE if answer["ok"]["has_regexp_groups"] else NO_MATCH)
        for given, found in zip(question.get("inputs", []), answer["ok"].get("results", [])):
            if "string" in given:
                asked = DONE if found else NO_MATCH, given["string"], given.get("base", "")
                yield line("exec", *asked, compact(found) if found else "")
                yield line("groups", *asked, groups_text(found) if found else "")
            elif is_init(given):
                wanted = compact(found) if found else "", groups_text(found) if found else ""
                yield line("match_init", DONE if found else NO_MATCH, compact(given["init"]), *wanted)


def lines_for(asked):
    """What a program reads that is asked the rows."""
    empty = [line("first", NO_PATTERN, "https://example.com/", "", 0)]
    return "".join(f"{it}\n" for it in [*empty, *(it for row in asked for it in lines_of(*row))])
