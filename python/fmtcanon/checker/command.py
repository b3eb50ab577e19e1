"""Says whether each printf format fits its call on every platform."""

import collections
import gc
from dataclasses import replace
from typing import Any, Counter, Dict, FrozenSet, Iterable, Iterator, List, Optional, Sequence, Set, Tuple

from ..compiling.closure import Wrappers
from ..compiling.libclang import MISSING, cindex
from ..compiling.retargeting import write_headers
from ..compiling.sources import Files
from ..fitting.checking import Answer, Found, Job, Question, answer
from ..fitting.fixing import WRONG
from ..fitting.reporting import COMPOSED, RANK, RULES, SIGN, UNREAD, shown_file, with_source, with_wrapper
from ..fitting.unit import Settings
from ..frame.command_line import MODELS, USAGE, counted, status_of
from ..frame.findings import ERROR, Finding, Printer, by_place, leveled
from ..frame.interrupting import temporary_folder
from ..frame.output import complain
from ..source.files import Unreadable
from .baseline import Baseline
from .cache import Cache, answers_of, cache_folder
from .changes import GitChange, change_of
from .check_options import NAME, is_writing, parsed
from .jobs import jobs_of, jobs_of_included, name_files
from .wrapping import Search, Wrapped


# From how many calls on the last line names a function that isn't known, with the option for it; and how many it names
# in any case if they get this many times the formats that were judged.
NAMED_FROM, LEAST_NAMED, TIMES = 10, 3, 4
# What is counted of each file.
COUNTS = ("files", "formats", "arguments", "unread_calls", "abroad")
# The outputs whose messages say how often a macro is used. In the others it is a number, so that they can be merged.
COUNTED = ("text", "github")


def question_of(options: Any, folder: str) -> Question:
    """Returns what the options ask. The folder gets the headers of this command."""
    added = [it for it in (RANK, SIGN, COMPOSED, UNREAD, WRONG) if getattr(options, it)]
    settings = Settings(write_headers(folder), dict(options.function), dict(options.type), folder)
    return Question(MODELS[options.model], added, settings)


def each_once(answers: Iterable[Answer]) -> Iterator[Answer]:
    """Yields answers without what an earlier one has, as what is found in a header, in several units; and at the end,
    of each header, what its macros have in all of them.
    """
    seen: Set[str] = set()
    in_headers: Dict[str, Dict[str, Found]] = {}
    for one in answers:
        own, rest = shown_file(one.file), {}
        for key, found in one.found.items():
            file = found.finding.file
            if "macro" in found.finding.details and file != own:
                known = in_headers.setdefault(file, {})
                known[key] = known[key].with_uses(found) if key in known else found
            elif key not in seen:
                rest[key] = found.counted()
        seen.update(rest)
        yield one._replace(found=rest)
    for file, known in sorted(in_headers.items()):
        nothing: Counter[str] = collections.Counter()
        yield Answer(file, {key: it.counted() for key, it in known.items()}, nothing, nothing, {})


def found_in(
    files: Files,
    question: Question,
    change: Optional[GitChange],
    options: Any,
    cache: Optional[Cache],
    printer: Printer,
) -> Tuple[Iterable[Answer], Wrapped]:
    """Returns what is found in the files that are judged, and the functions of other files that this depends on. If not
    all files are judged, others are searched only for functions that the judged ones call.
    """
    search = Search(files, question, cache, options.jobs)
    part, parts = options.shard
    jobs = list(jobs_of(files, question, change))[part - 1 :: parts]
    printer.progress.expect(len(jobs))
    if change is None and search.jobs.keys() <= {it.file for it in jobs}:
        search.search_all()
        wrapped = search.wrapped()
        return printer.progress.each(answers_of(known_by(jobs, wrapped), cache, options.jobs)), wrapped
    answers = list(printer.progress.each(answers_of(jobs, cache, options.jobs)))
    left = list(jobs_of_included(answers, question, change))
    jobs, answers = jobs + left, answers + list(map(answer, left))
    search.search_for(it for one in answers for it in one.called)
    wrapped = search.wrapped()
    changed = [at for at, one in enumerate(answers) if one.called & wrapped.wrappers.keys()]
    again = known_by([jobs[it] for it in changed], wrapped)
    for at, one in zip(changed, answers_of(again, cache, options.jobs)):
        answers[at] = one
    return answers, wrapped


def known_by(jobs: Iterable[Job], wrapped: Wrapped) -> List[Job]:
    """Returns jobs with what is known of functions of other files."""
    return [
        it._replace(question=it.question._replace(settings=it.question.settings._replace(found=wrapped.wrappers)))
        for it in jobs
    ]


def with_wrappers(answer: Answer, wrappers: Wrappers) -> Answer:
    """Returns an answer that says why functions of other files print as `printf` does."""
    found = {key: it._replace(finding=with_wrapper(it.finding, wrappers)) for key, it in answer.found.items()}
    return answer._replace(found=found)


def summary(counts: Counter[str], others: Counter[str], taking: FrozenSet[str] = frozenset()) -> str:
    """Returns what is said at the end: how much was judged and wasn't, and what was found. It names the functions that
    aren't known and get many formats, or the most if hardly anything was judged.
    """
    judged = ", ".join(counted(counts[f"{it}s"], it) for it in ("file", "format", "argument"))
    found = ", ".join(f"{counts[it]} {it}" for it in RULES if counts[it])
    parts = [f"{judged}: {found or 'nothing found'}"]
    if counts["known"]:
        parts.append(f"{counts['known']} in the baseline")
    if counts["unread_calls"]:
        calls = counted(counts["unread_calls"], "call")
        formats = "a format that wasn't" if counts["unread_calls"] == 1 else "formats that weren't"
        parts.append(f"{calls} with {formats} read")
    if counts["abroad"]:
        where = "on 64-bit Windows alone, in files with headers that it lacks (--model llp64)"
        parts.append(f"{counts['abroad']} more {where}")
    own = collections.Counter({it: count for it, count in others.items() if it.partition(":")[0] in taking})
    rest = others - own
    least = LEAST_NAMED if sum(others.values()) > TIMES * counts["formats"] else 0
    parts += named("functions that aren't known get literals with %", rest, least, " (--function {})")
    parts += named("functions that take their arguments themselves get literals with %", own, least, "")
    return "; ".join(parts)


def named(what: str, others: Counter[str], least: int, option: str) -> List[str]:
    """Returns what is said of functions: those that are called often, or the most called of all, by their names, and
    how many others there are.
    """
    listed = sorted(others.items(), key=lambda it: (-it[1], it[0]))
    shown = [it for at, it in enumerate(listed) if it[1] >= NAMED_FROM or at < least]
    # One is named in no more words than it is counted.
    shown = listed if len(listed) == len(shown) + 1 else shown
    names = [f"{counted(count, 'call')} of {it.partition(':')[0]}{option.format(it)}" for it, count in shown]
    rest, more = sum(it[1] for it in listed[len(shown) :]), len(listed) - len(shown)
    names += [f"{counted(rest, 'call')} of {counted(more, 'other')}"] if more else []
    return [f"{what}: {', '.join(names)}"] if names else []


def with_count(finding: Finding) -> Finding:
    """Returns a finding that says how many calls use the macro that it is in."""
    uses = finding.details.get("uses", 0)
    return replace(finding, message=f"{finding.message} ({uses} uses)") if uses > 1 else finding


def check(
    printer: Printer,
    answers: Iterable[Answer],
    fail_on: Sequence[str],
    baseline: Optional[Baseline],
    taking: FrozenSet[str] = frozenset(),
) -> int:
    """Prints what is found and isn't in the baseline. Returns the exit status."""
    status = 0
    counts: Counter[str] = collections.Counter()
    others: Counter[str] = collections.Counter()
    for one in answers:
        counts.update({it: one.counts[it] for it in COUNTS})
        others.update(one.others)
        for finding in by_place(leveled(it.finding, fail_on) for it in one.found.values()):
            if baseline and not baseline.is_new(finding):
                counts["known"] += 1
                continue
            shown = with_count(finding) if printer.output in COUNTED else finding
            printer.add(with_source(shown) if printer.has_excerpts else shown)
            counts[finding.kind] += 1
            status = max(status, int(finding.level == ERROR))
        if one.counts["left"]:
            status = USAGE
        elif baseline and one.counts["files"]:
            baseline.add_judged(one.file)
    printer.end()
    said = baseline.end() if baseline else ""
    printer.say("; ".join(filter(None, [summary(counts, others, taking), said])))
    return status


def fix(options: Any, files: Files, answers: Sequence[Answer], wrappers: Wrappers) -> int:
    """Writes what is proposed, or prints it as a diff. Returns the exit status."""
    # Other runs begin faster without these.
    from ..rewriting.writing import replace as write_all
    from .fixer import Fixer

    fixer = Fixer(options, files, answers, wrappers)
    status = write_all(options, fixer, fixer.names())
    return max(status, USAGE if any(it.counts["left"] for it in answers) else 0)


def run(options: Any) -> int:
    if cindex is None:
        complain(f"{NAME}: {MISSING}")
        return USAGE
    try:
        change = change_of(options) if options.git else None
        if change:
            name_files(options, change)
        files = Files(options)
        baseline = Baseline(options.baseline, options.update_baseline) if options.baseline else None
        folder_of_cache = None if options.no_cache else cache_folder()
        cache = Cache(folder_of_cache) if folder_of_cache else None
        with temporary_folder() as folder:
            printer = Printer(NAME, options.output, RULES, color=options.color)
            question = question_of(options, folder)
            # What is there by now stays, so that nobody looks at it after each file.
            gc.freeze()
            answers, wrapped = found_in(files, question, change, options, cache, printer)
            found: Iterable[Answer] = (with_wrappers(it, wrapped.wrappers) for it in each_once(answers))
            if change:
                found = map(change.part_of, found)
            if is_writing(options):
                return fix(options, files, list(found), wrapped.wrappers)
            return check(printer, found, options.fail_on, baseline, wrapped.taking)
    except BrokenPipeError:
        raise
    except (Unreadable, OSError) as error:
        complain(f"{NAME}: {error}")
        return USAGE


def main(words: Optional[Sequence[str]] = None) -> int:
    return status_of(NAME, lambda: run(parsed(words)))
