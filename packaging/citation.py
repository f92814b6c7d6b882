"""CITATION.cff beside the schema of its version, Citation File Format 1.2.0: the keys that there are, those that
must be there, and the form of each value. A validator of the field, where one is at hand, says the same; this
one needs Python alone, and reads the part of YAML that such a file uses."""
import re

TEXT, DATE, ANY = r".+", r"[0-9]{4}-[0-1][0-9]-[0-3][0-9]", r".*"
URL = r"(https|http|ftp|sftp)://.+"
PLACE = {name: TEXT for name in ("address", "city", "location", "region", "tel", "fax", "alias", "post-code", "name-particle")}
COMMON = {**PLACE, "country": r"[A-Z]{2}", "email": r"\S+@\S+\.\S{2,}", "orcid": r"https://orcid\.org/[0-9]{4}-[0-9]{4}-[0-9]{4}-[0-9]{3}[0-9X]", "website": URL}
PERSON = {**COMMON, "family-names": TEXT, "given-names": TEXT, "name-suffix": TEXT, "affiliation": TEXT}
ENTITY = {**COMMON, "name": TEXT, "date-start": DATE, "date-end": DATE}
SCALARS = {
    "abstract": TEXT, "cff-version": r"1\.2\.0", "commit": TEXT, "date-released": DATE, "doi": r"10\.\d{4,9}(\.\d+)?/[A-Za-z0-9:/_;\-\.\(\)\[\]\\]+",
    "license": TEXT, "license-url": URL, "message": TEXT, "repository": URL, "repository-artifact": URL, "repository-code": URL,
    "title": TEXT, "type": r"software|dataset", "url": URL, "version": TEXT,
}
LISTS = ("authors", "contact", "keywords", "identifiers", "references")
REQUIRED = ("authors", "cff-version", "message", "title")


def unquoted(text):
    text = text.strip()
    return text[1:-1] if len(text) > 1 and text[0] == text[-1] and text[0] in "'\"" else text


def pair(line):
    """The key and the value of a line, or None where it has no key."""
    found = re.fullmatch(r"([\w-]+):(?: +(.*))?", line.strip())
    return (found[1], unquoted(found[2] or "")) if found else None


def read(text):
    """The file as a dictionary of texts and of lists, whose entries are texts or dictionaries."""
    found, key = {}, None
    for line in text.splitlines():
        if not line.strip() or line.lstrip().startswith("#"):
            continue
        if not line.startswith(" ") and pair(line):
            key, value = pair(line)
            if key in found:
                raise ValueError(f"{key} stands there twice")
            found[key] = [] if not value else "" if value in (">-", ">", "|") else value
        elif line.lstrip().startswith("- ") and isinstance(found.get(key), list):
            entry = line.lstrip()[2:]
            found[key].append(dict([pair(entry)]) if pair(entry) else unquoted(entry))
        elif isinstance(found.get(key), list) and found[key] and isinstance(found[key][-1], dict) and pair(line):
            found[key][-1].update([pair(line)])
        elif isinstance(found.get(key), str) and line.startswith(" "):
            found[key] = f"{found[key]} {line.strip()}".strip()
        else:
            raise ValueError(f"no line of such a file: {line}")
    return found


def author_faults(author):
    """What is wrong with a person or an entity."""
    keys = ENTITY if isinstance(author, dict) and "name" in author else PERSON
    if not isinstance(author, dict) or not author:
        return [f"no author: {author}"]
    return [f"an author has {key}: {value}" for key, value in author.items() if not re.fullmatch(keys.get(key, "(?!)"), value)]


def faults(text):
    """What is wrong with a file by the schema."""
    try:
        found = read(text)
    except ValueError as error:
        return [str(error)]
    wrong = [f"there is no {key}" for key in REQUIRED if not found.get(key)]
    for key, value in found.items():
        if key in LISTS:
            is_list = isinstance(value, list) and value
            wrong += [] if is_list else [f"{key} is no list"]
        elif key not in SCALARS or not isinstance(value, str) or not re.fullmatch(SCALARS[key], value):
            wrong.append(f"{key} is {value}")
    for author in [*found.get("authors", []), *found.get("contact", [])]:
        wrong += author_faults(author)
    keywords = found.get("keywords", [])
    if not all(isinstance(word, str) and word for word in keywords) or len({str(word) for word in keywords}) < len(keywords):
        wrong.append(f"keywords are {keywords}")
    return wrong
