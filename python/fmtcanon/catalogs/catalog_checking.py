"""Checks that the translations of a catalog take the arguments of their messages."""

import collections
import json
from dataclasses import replace
from typing import Callable, Dict, Iterator, NamedTuple, Optional, Sequence, Set, Tuple

import fmtcanon

from ..formats.rejections import advice_on, instead_of, instead_span, refused_span
from ..formats.verdicts import argument_words
from ..frame.command_line import model_names
from ..frame.findings import ERROR, WARNING, Finding
from .charsets import charset_named
from .message_formats import DEPENDENT, MessageFormat, shape_of, shown_kinds, shown_type
from .plurals import PluralRule, fault_of, rule_of
from .reading import Catalog, Message, read_catalog
from .catalog_lines import CatalogSource, Mark
from .catalog_tokens import BadCatalog

# The types that an argument has whether it is printed as a number, a short number or a character.
INTEGERS = {fmtcanon.Type.INT, fmtcanon.Type.UINT}
# How much of a message a report shows.
SHOWN = 60
# In a catalog of more bytes, and in a longer text, the place of a directive isn't looked for.
LONGEST, LONG = 20_000_000, 10_000
# The kinds of findings.
TYPES, NUMBER, FORMAT, NEWLINE, PLURALS, CHARSET, USE, EMPTY, UNJUDGED, UNREADABLE = (
    "types",
    "number",
    "format",
    "newline",
    "plurals",
    "charset",
    "use",
    "empty",
    "unjudged",
    "unreadable",
)
RULES = {
    TYPES: "A translation takes arguments of other types than its message.",
    NUMBER: "A translation takes another number of arguments than its message.",
    FORMAT: "A translation is not a C format, and its message is one.",
    NEWLINE: "A translation begins or ends with a newline, and its message doesn't, or the reverse.",
    PLURALS: "A translation has another number of plural forms than the header says, or the header doesn't say it.",
    CHARSET: "A text has a byte that is not of the catalog's charset.",
    USE: "A translation prints an int as something else.",
    EMPTY: "Some plural forms of a translation are empty, and others are not.",
    UNJUDGED: "A message is not a C format, so its translation can't be judged.",
    UNREADABLE: "A catalog can't be read.",
}


# The shapes of pairs of texts about which nothing is reported, with the rest that decides it.
Right = Set[Tuple[Optional[bytes], Optional[bytes], bool, bool]]


class MessageText(NamedTuple):
    """A text of a message, under the name that a report gives it, and whether it is a translation."""

    name: str
    text: bytes

    @property
    def is_translation(self) -> bool:
        return self.name.startswith("msgstr")


def shown(text: bytes) -> str:
    """Returns a message in one line, cut short."""
    # No character has more than four bytes.
    quoted = json.dumps(text[: 4 * SHOWN].decode(errors="ignore"), ensure_ascii=False)
    return quoted if len(quoted) <= SHOWN and len(text) <= 4 * SHOWN else quoted[: SHOWN - 3] + '.."'


class Reason(NamedTuple):
    """What is wrong with a text, with `{}` for its name and that of the one that it is compared with.

    `argument` is the index of the argument that it is about, and `refusal` is set if a text is rejected.
    """

    kind: str
    text: str
    argument: Optional[int] = None
    refusal: Optional[fmtcanon.Refused] = None


def difference(
    wanted: MessageFormat, found: MessageFormat, may_be_fewer: bool, model: fmtcanon.Model
) -> Optional[Reason]:
    """Says how the types of two formats differ: by their number, or at an argument. None if they don't."""
    is_fit = fmtcanon.fits(wanted.plain, found.plain, model=model, fewer=may_be_fewer)
    macros, others = wanted.macros(model), found.macros(model)
    if is_fit and not macros and not others:
        return None
    first, second = wanted.codes(model), found.codes(model)
    if not is_fit and (len(second) > len(first) or (len(second) < len(first) and not may_be_fewer)):
        counts = f"{len(first)} and {len(second)}"
        text = f"number of format specifications in '{{}}' and '{{}}' does not match: {counts}"
        return Reason(NUMBER, text, min(len(first), len(second)))
    # The library sees no macros.
    for at, (one, other) in enumerate(zip(first, second)):
        if macros.get(at) != others.get(at) or (at not in macros and one != other):
            types = shown_type(one, macros.get(at)), shown_type(other, others.get(at))
            both = [f"{type} ({taker(it, at, model)}) in '{{}}'" for it, type in zip((wanted, found), types)]
            return Reason(TYPES, f"{argument_words(at)} is {both[0]}, and {both[1]}", at)
    return None


def taker(format: MessageFormat, argument: int, model: fmtcanon.Model) -> str:
    """Returns the specifications that take an argument, as they are spelled."""
    return " and ".join(it.decode() for it in format.takers(argument, model))


def changed_kind(wanted: MessageFormat, found: MessageFormat, model: fmtcanon.Model) -> Optional[Reason]:
    """Says which int is printed as something else by the second format, whose types are those of the first."""
    codes = [one.codes(model) for one in (wanted, found)]
    kinds = [it.kinds(len(listed), model) for it, listed in zip((wanted, found), codes)]
    # The second format may leave arguments out.
    for at, (code, one, other) in enumerate(zip(codes[0], *kinds)):
        if one != other and code in INTEGERS:
            uses = [f"{taker(it, at, model)} as {shown_kinds(kind)}" for it, kind in ((wanted, one), (found, other))]
            return Reason(USE, f"'{{}}' and '{{}}' use {argument_words(at)} otherwise: {uses[0]}, and {uses[1]}", at)
    return None


def newline_faults(message: Message) -> Iterator[str]:
    """Yields where a message and a translation don't begin or end with newlines alike, which msgfmt demands, except of
    a message without text.
    """
    if not message.msgid:
        return
    given = [message.msgid, *message.forms.values(), *([] if message.plural is None else [message.plural])]
    if len({(it[:1] == b"\n", it[-1:] == b"\n") for it in given}) == 1:
        return
    texts = [MessageText(f"msgstr[{form}]", text) for form, text in sorted(message.forms.items())]
    if message.plural is None:
        texts = [MessageText("msgstr", message.forms[0])]
    else:
        texts.insert(0, MessageText("msgid_plural", message.plural))
    for end, place in [("begin", slice(None, 1)), ("end", slice(-1, None))]:
        for name, text in texts:
            if (text[place] == b"\n") != (message.msgid[place] == b"\n"):
                yield f"'msgid' and '{name}' entries do not both {end} with '\\n'"


class Checker:
    """Checks one catalog after another, hands each finding on, and counts messages and faults."""

    def __init__(
        self,
        add: Callable[[Finding], None],
        models: Sequence[fmtcanon.Model],
        is_all: bool = False,
        right: Optional[Right] = None,
        is_shown: bool = False,
    ) -> None:
        self.add = add
        # Whether findings are to have excerpts of the catalog, its bytes with their charset, and its lines.
        self.is_shown = is_shown
        self.data, self.charset = b"", ""
        self.lines: Optional[CatalogSource] = None
        self.right: Right = set() if right is None else right
        self.models = models
        self.is_all = is_all
        self.faults = 0
        self.judged = 0
        self.unjudged = 0
        # How many findings there are of messages.
        self.reports = 0
        self.is_whole = True
        self.is_certain = True
        # How many messages with formats of other languages weren't judged, by their flags.
        self.others: Dict[str, int] = collections.Counter()

    def report(self, file: str, line: int, text: str) -> None:
        """Reports that a catalog can't be read."""
        self.faults += 1
        self.add(Finding(file, line, 1 if line else None, UNREADABLE, ERROR, text))

    def report_of(
        self,
        file: str,
        message: Message,
        reason: Reason,
        texts: Sequence[MessageText] = (),
        models: Sequence[fmtcanon.Model] = (),
    ) -> None:
        if self.is_certain:
            self.faults += 1
            self.found(file, message, ERROR, reason, texts, models)
        else:
            self.is_whole = False
            self.found(
                file, message, WARNING, reason._replace(text=f"if it is a C format: {reason.text}"), texts, models
            )

    def found(
        self,
        file: str,
        message: Message,
        level: str,
        reason: Reason,
        texts: Sequence[MessageText] = (),
        models: Sequence[fmtcanon.Model] = (),
        **more: Sequence[str],
    ) -> None:
        formats = tuple(it.text.decode(errors="backslashreplace") for it in texts)
        details = {"msgid": message.msgid.decode(errors="backslashreplace"), "formats": list(formats), **more}
        names = model_names(models or self.models)
        self.reports += 1
        # A .mo file has no lines: its messages are found by their texts.
        text = reason.text if self.data else f"{reason.text}, of {shown(message.msgid)}"
        finding = Finding(file, message.line, message.column, reason.kind, level, text, None, formats, names, details)
        self.add(self.with_source(finding, message, reason, texts, (models or self.models)[0]))

    def with_source(
        self, finding: Finding, message: Message, reason: Reason, texts: Sequence[MessageText], model: fmtcanon.Model
    ) -> Finding:
        """Returns a finding at the directive that it is about, with the lines if these are shown, and what helps."""
        is_long = len(self.data) > LONGEST or any(len(it.text) > LONG for it in texts)
        marks = list(marks_of(reason, texts, model)) if self.is_shown or (self.data and not is_long) else []
        last = self.source.found(message.line, marks[-1]) if marks else None
        if last:
            line = int(last.label)
            finding = replace(finding, line=line, column=last.start + 1, end=(line, last.end + 1))
        if not self.is_shown:
            return finding
        excerpts = tuple(self.source.excerpt(message.line, it) for it in marks)
        refused = texts[-1].text if texts and reason.refusal else b""
        help = advice_on(refused, reason.refusal, model) if reason.refusal else ""
        return replace(finding, excerpts=excerpts, help=help)

    def leave(
        self,
        file: str,
        message: Message,
        text: str,
        rejected: Optional[MessageText] = None,
        refusal: Optional[fmtcanon.Refused] = None,
    ) -> None:
        """Warns of a text that isn't judged, and says which format is rejected, and where the program has it."""
        self.is_whole = False
        places = self.source.references(message.line)
        if places:
            more = f" and {len(places) - 1} more" if len(places) > 1 else ""
            text += f"; the message is from {places[0]}{more}"
        texts = [rejected] if rejected else ()
        self.found(file, message, WARNING, Reason(UNJUDGED, text, refusal=refusal), texts, source=places)

    @property
    def source(self) -> CatalogSource:
        """The lines of the catalog, once they are needed."""
        if self.lines is None:
            self.lines = CatalogSource(charset_named(self.charset).decode(self.data) if self.data else b"")
        return self.lines

    def check_data(self, file: str, data: bytes) -> None:
        """Checks the catalog in a file's bytes."""
        try:
            catalog = read_catalog(data)
            rule = rule_of(catalog.header)
        except BadCatalog as fault:
            self.report(file, fault.line, f"it can't be read: {fault}")
        except ValueError as error:
            self.report(file, 0, f"it can't be read: {error}")
        else:
            # A .mo file has no lines.
            self.data, self.charset, self.lines = data if catalog.has_flags else b"", catalog.charset, None
            self.check_catalog(file, catalog, rule)

    def check_catalog(self, file: str, catalog: Catalog, rule: Optional[PluralRule]) -> None:
        if catalog.hidden:
            self.unjudged += catalog.hidden
            text = f"{catalog.hidden} strings depend on the machine, and aren't checked"
            if catalog.hidden == 1:
                text = "1 string depends on the machine, and isn't checked"
            self.add(Finding(file, 0, None, UNJUDGED, WARNING, text))
        fault = fault_of(catalog.header, rule)
        if fault:
            self.report_header(file, catalog, fault)
        for message in catalog.messages:
            if message.bad_bytes:
                self.report_bytes(file, message, catalog.charset)
            elif not message.is_fuzzy:
                self.check_forms(file, message, None if fault else rule)
                if message.is_translated:
                    self.check_message(file, message, rule, catalog.has_flags)

    def report_header(self, file: str, catalog: Catalog, fault: str) -> None:
        """Reports a header without a rule for plural forms, at the first translation that has such, if there is one."""
        for message in catalog.messages:
            if message.plural is not None and message.is_translated and not message.is_fuzzy and not message.bad_bytes:
                self.faults += 1
                self.found(file, message, ERROR, Reason(PLURALS, f"it has plural forms, but {fault}"))
                return

    def report_bytes(self, file: str, message: Message, charset: str) -> None:
        """Reports bytes that aren't of the charset. Such a message isn't judged further."""
        for line, column, name, byte in message.bad_bytes:
            self.faults += 1
            text = f"'{name}' has a byte that is not of the charset {charset}: 0x{byte:02x}"
            self.add(Finding(file, line, column, CHARSET, ERROR, text))

    def check_forms(self, file: str, message: Message, rule: Optional[PluralRule]) -> None:
        """Reports a translation of more or fewer forms than the header says, and warns of one with some forms empty: if
        the first one is, no form is ever shown.
        """
        count = rule.count if rule and message.plural is not None and message.is_translated else None
        if count is not None and len(message.forms) != count:
            forms = "one plural form" if len(message.forms) == 1 else f"{len(message.forms)} plural forms"
            self.faults += 1
            self.found(file, message, ERROR, Reason(PLURALS, f"it has {forms}, and nplurals is {count}"))
        if len(message.forms) > 1 and any(message.forms.values()) and not all(message.forms.values()):
            names = ", ".join(f"msgstr[{form}]" for form, text in sorted(message.forms.items()) if not text)
            self.found(file, message, WARNING, Reason(EMPTY, f"{names}: empty, unlike other forms"))

    def check_message(self, file: str, message: Message, rule: Optional[PluralRule], has_flags: bool) -> None:
        self.is_certain = True
        for fault in newline_faults(message):
            self.report_of(file, message, Reason(NEWLINE, fault))
        is_format = message.is_c_format
        if is_format is None:
            is_format = (self.is_all or not has_flags) and b"%" in (message.plural or message.msgid)
            self.is_certain = self.is_all
        if is_format:
            self.is_whole = True
            self.check_formats(file, message, rule)
            self.judged += self.is_whole
            self.unjudged += not self.is_whole
        elif message.other_format:
            self.others[message.other_format] += 1

    def check_formats(self, file: str, message: Message, rule: Optional[PluralRule]) -> None:
        if message.plural is None:
            texts = MessageText("msgid", message.msgid), MessageText("msgstr", message.forms[0])
            self.check_pair(file, message, *texts, False)
            return
        plural = MessageText("msgid_plural", message.plural)
        if not self.check_pair(file, message, plural, MessageText("msgid", message.msgid), True):
            return
        for form, text in sorted(message.forms.items()):
            may_be_fewer = len(message.forms) > 1 and (rule is None or rule.is_few(form, message.flags))
            self.check_pair(file, message, plural, MessageText(f"msgstr[{form}]", text), may_be_fewer)

    def check_pair(
        self, file: str, message: Message, first: MessageText, second: MessageText, may_be_fewer: bool
    ) -> bool:
        """Checks the second text against the first, and says whether the first is accepted."""
        shapes = shape_of(first.text), shape_of(second.text)
        pair = (*shapes, second.name == "msgid", may_be_fewer)
        if pair in self.right:
            return True
        count = self.reports
        is_accepted = self.check_texts(file, message, first, second, may_be_fewer)
        if self.reports == count and None not in shapes:
            self.right.add(pair)
        return is_accepted

    def check_texts(
        self, file: str, message: Message, first: MessageText, second: MessageText, may_be_fewer: bool
    ) -> bool:
        wanted, found = MessageFormat(first.text), MessageFormat(second.text, second.name != "msgid")
        # Without these bytes, all data models have the same types.
        models = self.models if DEPENDENT.search(first.text + second.text) else self.models[:1]
        rejection = rejection_of(wanted, models)
        if rejection is not None:
            self.leave(
                file,
                message,
                f"'{second.name}' isn't checked, since '{first.name}' is {rejection.reason}",
                first,
                rejection.refusal,
            )
            return False
        rejection = rejection_of(found, models)
        if rejection is None:
            self.check_types(file, message, (first, second), (wanted, found), may_be_fewer, models)
        elif second.name == "msgid" and is_missing(rejection.refusal):
            # The message for one may leave out arguments that no list of arguments may.
            self.leave(file, message, f"'msgid' isn't checked: {rejection.reason}")
        else:
            why = said_of(rejection, found.text, models[0])
            reason = f"'{second.name}' is not a valid C format string, unlike '{first.name}'. Reason: {why}"
            self.report_of(file, message, Reason(FORMAT, reason, refusal=rejection.refusal), (first, second))
        return True

    def check_types(
        self,
        file: str,
        message: Message,
        texts: Tuple[MessageText, MessageText],
        formats: Tuple[MessageFormat, MessageFormat],
        may_be_fewer: bool,
        models: Sequence[fmtcanon.Model],
    ) -> None:
        wanted, found = formats
        names = [it.name for it in texts]
        reasons = [difference(wanted, found, may_be_fewer, model) for model in models]
        for model, reason in zip(models, reasons):
            if reason:
                # The data model is named if the formats don't differ in each.
                where = "" if all(reasons) else f", in {model.name}"
                reason = reason._replace(text=reason.text.format(*names) + where)
                self.report_of(
                    file,
                    message,
                    reason,
                    texts,
                    () if all(reasons) else [it for it, one in zip(models, reasons) if one],
                )
                return
        change = changed_kind(wanted, found, models[0])
        if change:
            self.found(file, message, WARNING, change._replace(text=change.text.format(*names)), texts)


class WhyRejected(NamedTuple):
    """Why a text is not a format: in words, and as the refusal of the library, if it is one."""

    reason: str
    refusal: Optional[fmtcanon.Refused] = None


def is_missing(refusal: Optional[fmtcanon.Refused]) -> bool:
    return refusal is not None and refusal.kind is fmtcanon.Kind.MISSING_ARGUMENT


def rejection_of(format: MessageFormat, models: Sequence[fmtcanon.Model]) -> Optional[WhyRejected]:
    """Returns why a format is rejected in one of the data models, or None."""
    for model in models:
        try:
            format.codes(model)
        except fmtcanon.Refused as refusal:
            return WhyRejected(str(refusal), refusal)
    reason = format.two_types(models[0])
    return WhyRejected(reason) if reason else None


def said_of(rejection: WhyRejected, text: bytes, model: fmtcanon.Model) -> str:
    """Returns why a format is rejected, and first what to write, if that is known."""
    refusal = rejection.refusal
    instead = instead_of(text, refusal, model) if refusal else None
    if refusal is None or instead is None:
        return rejection.reason
    start, end = instead_span(text, refusal)
    wrong, right = (it.decode(errors="backslashreplace") for it in (text[start:end], instead))
    return f"`{wrong}` isn't a directive, write `{right}`: {rejection.reason}"


def marks_of(reason: Reason, texts: Sequence[MessageText], model: fmtcanon.Model) -> Iterator[Mark]:
    """Yields what a reason is about: the byte that is rejected, or the specifications that take an argument."""
    if reason.refusal is not None and texts:
        text = texts[-1]
        yield Mark(text.name, text.text, *refused_span(text.text, reason.refusal), reason.refusal.name)
    elif reason.argument is not None:
        for text in texts:
            yield taken_in(text, reason.argument, model)


def taken_in(text: MessageText, argument: int, model: fmtcanon.Model) -> Mark:
    """Returns the first specification of a text that takes an argument, with its type; or the text if none does."""
    format = MessageFormat(text.text, text.is_translation)
    codes, macros = format.codes(model), format.macros(model)
    use = next((it for it in format.uses(model) if it.argument == argument), None)
    if use is None:
        return Mark(text.name, text.text, 0, len(text.text), "takes no such argument")
    end = use.start + len(use.specification)
    return Mark(text.name, text.text, use.start, end, shown_type(codes[argument], macros.get(argument)))
