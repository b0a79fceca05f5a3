"""Tells how much there is to believe: of the whole contract, of status 0, and of each command."""

from __future__ import annotations

from typing import NamedTuple

from believe.closure import Size, closure, size
from believe.names import World
from believe.plan import DONE, HEADLINE, TOP, TRACED, WATCHED

_SHARED = (
    "fx_words.Job.job_of",
    "fx_command::status::Status",
    "fx_outside::host::Host",
    "fx_outside::sink::Sink",
    "fx_outside::gate::Gate",
    "fx_command.Left.IsUnasked",
)
_RUN = (
    "fx_command.Table.CommandRow",
    "fx_run_commands.Runs.Rows.run_command",
    "fx_inputs.Reads.LetsRun",
    "fx_inputs.Reads.IsProperRun",
)


class Command(NamedTuple):
    """A command: the definitions of its clauses, and what of them is another command's alone."""

    name: str
    roots: tuple[str, ...]
    others: tuple[str, ...] = ()


COMMANDS = (
    Command("run", _RUN, (WATCHED,)),
    Command("trace", _RUN, (WATCHED,)),
    Command("watch", _RUN),
    Command(
        "views",
        (
            "fx_command.Table.CommandRow",
            "fx_views_command.Rows.views_command",
            "fx_inputs.Reads.LetsRun",
            "fx_inputs.Views.HasViewsInputs",
            "fx_command.Out.IsProperOut",
        ),
    ),
    Command(
        "journal",
        (
            "fx_run_commands.Journals.Rows.JournalRow",
            "fx_run_commands.Journals.Rows.KeepsJournal",
            "fx_inputs.Reads.LetsRun",
            "fx_inputs.Reads.IsProperRun",
            "fx_durable::disk::Disk",
        ),
    ),
    Command(
        "recover",
        (
            "fx_commands.Recoveries.Rows.RecoverRow",
            "fx_inputs.Reads.LetsRun",
            "fx_inputs.Reads.IsProperRun",
            "fx_commands.Recoveries.Rows.HasJournal",
            "fx_durable::disk::Disk",
        ),
    ),
    Command(
        "audit",
        (
            "fx_command.Query.QueryRow",
            "fx_commands.Audits.Rows.audit_query",
            "fx_inputs.Reads.LetsInputs",
            "fx_inputs.Inputs.HasInputs",
        ),
    ),
    Command(
        "show",
        (
            "fx_command.Query.QueryRow",
            "fx_commands.Shows.Rows.show_query",
            "fx_inputs.Reads.LetsInputs",
            "fx_inputs.Inputs.HasInputs",
        ),
    ),
    Command(
        "gen",
        (
            "fx_command.Table.CommandRow",
            "fx_large_commands.GenRows.gen_making",
            "fx_command.Out.LetsOut",
            "fx_command.Out.IsProperOut",
        ),
    ),
    Command(
        "large",
        (
            "fx_command.Table.CommandRow",
            "fx_large_commands.LargeRows.large_making",
            "fx_command.Out.LetsOut",
            "fx_command.Out.IsProperOut",
        ),
    ),
)


def counts(world: World) -> list[str]:
    """A line for the contract, for status 0 of `run`, for it without events, and each command.

    Each tells definitions, lines of specs, and lines of types, constants and traits in sources; a
    command besides what it adds to `run`.
    """
    told = [f"{'':26}{'definitions':>12}{'specs':>8}{'src':>6}   beyond run: definitions, lines"]
    top = world.function(*TOP)
    told.append(_line(top, size(world, closure(world, [top]))))
    plain = closure(world, [DONE, HEADLINE], [WATCHED]) - {WATCHED}
    told.append(_line("status 0 of run", size(world, plain)))
    without = closure(world, [DONE, HEADLINE], [WATCHED, TRACED]) - {WATCHED, TRACED}
    told.append(_line("without the machine", size(world, without)))
    run: set[str] = set()
    for command in COMMANDS:
        found = closure(world, [*_SHARED, *command.roots], command.others) - set(command.others)
        run = run or found
        more = size(world, found - run)
        told.append(
            f"{_line(command.name, size(world, found))}{more.definitions:>15}{more.lines:>7}"
        )
    return told


def _line(name: str, read: Size) -> str:
    """A line of the figures."""
    return f"{name:26}{read.definitions:>12}{read.specs:>8}{read.sources:>6}"
