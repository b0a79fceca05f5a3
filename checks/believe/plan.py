"""What of the page is written by hand: its sections, and where some laws stand.

A section has a title, some sentences, its roots and its spine. Each definition stands in the first
section whose roots rest on it. The spine is shown in full, in the order given; the rest is folded.
Names are keys, as `crate.Module.name` of specs and `crate::module::name` of sources.
"""

from __future__ import annotations

from typing import NamedTuple

WATCHED = "fx_watch.Outcome.IsWatchedAs"
TRACED = "fx_report.Traced.IsTracedAs"
DONE = "fx_command.Table.IsMade"
HEADLINE = "fx_run_commands.Runs.Rows.run_making"
TOP = ("fx_top", "top")


class Section(NamedTuple):
    """A section of the page. Each sentence of `told` has at most 30 words.

    `folds_laws` folds the section's laws too, where none of it has to be read.
    """

    title: str
    told: str
    roots: tuple[str, ...] = ()
    spine: tuple[str, ...] = ()
    folds_laws: bool = False


class Plan(NamedTuple):
    """The page's sections, the first of which has no roots; and what of the laws is by hand.

    `top` is the crate and the function of the contract. The sections up to the one of `headline`
    are read first. The walk goes through a `cut` in the section that has it as a root, and in no
    earlier one. `laws_at` gives the title of the section that a law stands in, by the law's key;
    all others stand at the last section that they cite. `examples` are the laws that show single
    cases, each the key of a law or of a module of laws: they are folded.
    """

    top: tuple[str, str]
    headline: str
    sections: tuple[Section, ...]
    cuts: tuple[str, ...] = ()
    laws_at: dict[str, str] = {}
    examples: tuple[str, ...] = ()


SECTIONS = (
    Section(
        "The claim",
        "Status 0 of `run` says that there are a base, a complete order and good retries. Their"
        " report is written behind what was written before. OUT holds the folder of the last state,"
        " and all else of the host is as before. The other sections say what these words mean.",
        (),
        (
            DONE,
            HEADLINE,
            "fx_run_commands.Runs.Outcome.IsOutcome",
            "fx_inputs.Inputs.HasBase",
            "fx_run_commands.Runs.Outcome.IsPrintedAs",
        ),
    ),
    Section(
        "Names, paths, nodes",
        "A path is a list of at most 64 names. A node is a file with bytes and a flag, a directory"
        " with names, or a link with a text.",
        (
            "fx_store.Names.IsPath",
            "fx_store.Names.IsNameSet",
            "fx_store.Names.IsLinkText",
            "fx_store.Names.path_text",
            "fx_store.Names.path_cmp",
            "fx_store.Names.IsContent",
            "fx_store::node::Node",
        ),
        ("fx_store.Names.is_name", "fx_store::node::Node"),
    ),
    Section(
        "Filestores",
        "A filestore maps finitely many paths to nodes. It is whole if the root is a directory and"
        " a longer path is mapped exactly where its parent lists its last name.",
        (
            "fx_store.Whole.IsWhole",
            "fx_store.Whole.Nodes",
            "fx_store.Whole.over_nodes",
            "fx_store.Whole.over",
        ),
        ("fx_store.Whole.IsWhole", "fx_store.Whole.over"),
    ),
    Section(
        "Resolution",
        "A path leads on name by name, through at most 40 links. A rule is a tree of looks: its"
        " answer and what it consults are read off the same tree. A `Tick` counts an evaluation and"
        " changes no answer.",
        ("fx_store.Resolve.resolve", "fx_store.Rule.answer"),
        (
            "fx_store.Rule.Ask",
            "fx_store.Rule.answer",
            "fx_store.Resolve.walk",
            "fx_store.Resolve.at_name",
            "fx_store.Resolve.along",
        ),
    ),
    Section(
        "Expressions",
        "An expression gives a value, or the fault of its first part that has one. Where a value"
        " lacks the shape that its operator takes, a default stands in. No checked text meets one.",
        ("fx_expr.Eval.eval_of",),
        (
            "fx_expr.ExprTree.ExprTree",
            "fx_expr.Tree.Tree",
            "fx_expr.Eval.eval_of",
        ),
    ),
    Section(
        "Values of descriptions",
        "At a path a description has a value, or none.",
        ("fx_spec.Describe.value",),
        ("fx_spec.SpecTree.SpecTree", "fx_spec.Describe.value"),
    ),
    Section(
        "Places",
        "An address is a list of steps from the root description. It leads to a place, or nowhere.",
        ("fx_spec.Place.place",),
        ("fx_spec.Place.lead", "fx_spec.Place.place"),
    ),
    Section(
        "Moves and fetches",
        "A move gives the new address and a fetch the value, or each the first refusal.",
        (
            "fx_spec.Move.go_into",
            "fx_spec.Move.go_to",
            "fx_spec.Move.go_down",
            "fx_spec.Move.go_next",
            "fx_spec.Move.go_prev",
            "fx_spec.Move.go_out",
            "fx_spec.Move.go_up",
            "fx_spec.Move.fetch_at",
            "fx_spec.Move.whole_at",
            "fx_spec.Move.validate_at",
        ),
        ("fx_spec.Move.go_into", "fx_spec.Move.fetched"),
    ),
    Section(
        "Edits",
        "A store, a creation or a removal gives its changes, or the first refusal.",
        ("fx_spec.Edit.store_at", "fx_spec.Edit.create_at", "fx_spec.Edit.remove_at"),
        (
            "fx_spec.Edit.store_landed",
            "fx_spec.Edit.replaced",
            "fx_spec.Edit.entry",
            "fx_spec.Edit.make",
            "fx_spec.Edit.create_landed",
            "fx_spec.Edit.remove_entry",
        ),
    ),
    Section(
        "Transactions, run whole",
        "A transaction is its commands, one after another, over filestore, address and variables."
        " If it is not done, the filestore is as before.",
        (
            "fx_spec.Transaction.outputs",
            "fx_spec.Transaction.end",
            "fx_spec.Transaction.left_nodes",
        ),
        (
            "fx_spec.CommandTree.CommandTree",
            "fx_spec.Transaction.run",
            "fx_spec.Transaction.kept",
            "fx_spec.Transaction.left_nodes",
        ),
    ),
    Section(
        "States, orders, retries",
        "A state is the filestore after the first transactions of an order. These definitions say"
        " which orders are complete, and which retries an order can have had.",
        ("fx_spec.Order.state", "fx_spec.Order.IsComplete", "fx_spec.Order.RetriesOk"),
        (
            "fx_spec.Order.state",
            "fx_spec.Order.after_all",
            "fx_spec.Order.IsLegalFor",
            "fx_spec.Order.IsComplete",
            "fx_spec.Order.IsRetry",
            "fx_spec.Order.RetriesOk",
        ),
    ),
    Section(
        "The report",
        "The report is the bytes of an order and its retries. By a law different ones have"
        " different bytes. So how it is spelled matters to readers alone.",
        ("fx_report.Entries.report",),
        ("fx_report.Entries.entry", "fx_report.Report.report_text"),
    ),
    Section(
        "Texts: tokens and trees",
        "A text stands for the tree whose tokens are its own. The definitions print trees, and"
        " parse nothing.",
        ("fx_grammar.Texts.IsDescription", "fx_grammar.Texts.IsScript"),
        (
            "fx_grammar.Texts.IsDescription",
            "fx_grammar.Texts.IsScript",
            "fx_grammar.Tokens.spec_tokens",
        ),
    ),
    Section(
        "Texts: shapes and meaning",
        "These definitions say which trees are well shaped, and which description a text with"
        " definitions means.",
        ("fx_command.Described.Describes", "fx_command.Scripted.Scripts"),
        (
            "fx_spec.Written.meant",
            "fx_spec.Written.calls_in",
        ),
    ),
    Section(
        "The host and the sink",
        "This is what the claim asks of the outside: the clauses of these traits are its premises.",
        ("fx_outside::host::Host", "fx_outside::sink::Sink", "fx_outside::gate::Gate"),
        (
            "fx_outside.Host.HostView",
            "fx_outside.Tree.IsWhole",
            "fx_outside.Host.HasCause",
            "fx_outside.Sink.SinkView",
        ),
    ),
    Section(
        "The folder of a filestore",
        "The folder has the directories as folders, the files, and a table of links and flags. FOLDER"
        " is that of the loaded filestore, which is whole and within the limits. An empty table may"
        " stand for none.",
        (
            "fx_folder.HasFolder.HasFolder",
            "fx_folder.Deep.folder_entry",
            "fx_folder.Folder.IsSaved",
        ),
        (
            "fx_folder.HasFolder.HasFolder",
            "fx_folder.LoadLaws.IsWithinLimits",
            "fx_folder.HasFolder.StandsFor",
            "fx_folder.Deep.folder_entry",
            "fx_folder.Places.host_entry",
            "fx_table.Table.table_text",
            "fx_folder.Folder.IsSaved",
        ),
    ),
    Section(
        "The words",
        "These definitions say which words ask for which command.",
        ("fx_words.Job.job_of",),
    ),
    Section(
        "The machine of looks and settles",
        "Behind each report of `run` stand events of this machine that lead to the same order and"
        " retries. By some schedule `trace` may print them. A shell looks at one path after"
        " another. Then it settles, or it starts again. Where no filestore agrees with a shell's"
        " looks, what is said of all such filestores says nothing. By the law"
        " `a_settled_shell_saw_the_state` such a shell can't settle.",
        (TRACED,),
        (
            TRACED,
            "fx_spec.Task.consulted",
            "fx_machine.Machine.ComesNext",
            "fx_machine.Machine.Looks",
            "fx_machine.Machine.Settles",
            "fx_machine.Machine.Restarts",
        ),
    ),
    Section(
        "What is left of `run`, status 0",
        "With these the definitions of status 0 of `run` are complete.",
        (DONE, HEADLINE),
        ("fx_report.Traced.IsBehindSomeTrace",),
    ),
    Section(
        "`watch`",
        "These lines say what is told of the folder after each commit.",
        (WATCHED,),
        (WATCHED,),
    ),
    Section(
        "What a folder loads as",
        "These say when a folder is refused. By the law `folders_are_what_they_load_as` a folder that"
        " loads is the folder of what it loads as, as said above, and no other folder loads so.",
        ("fx_folder.Loads.Loads",),
        folds_laws=True,
    ),
    Section(
        "Statuses 3 and 4: first faults",
        "These definitions say which texts and folders are refused, and for what.",
        ("fx_inputs.Inputs.IsFirstRefused", "fx_folder.Loads.IsRefused"),
        ("fx_command.Described.IsRefusedFor",),
    ),
    Section(
        "The other statuses of `run`",
        "This is the table of all statuses of a command, with what `run`, `trace` and `watch` put into"
        " it.",
        (
            "fx_command.Table.CommandRow",
            "fx_run_commands.Runs.Rows.run_command",
            "fx_inputs.Reads.LetsRun",
            "fx_inputs.Reads.IsProperRun",
        ),
        ("fx_command.Table.CommandRow", "fx_run_commands.Runs.Rows.run_command"),
    ),
    Section(
        "`show`",
        "It is printed whether the folder has a value by the description, and which.",
        (
            "fx_command.Query.QueryRow",
            "fx_commands.Shows.Rows.show_query",
            "fx_inputs.Reads.LetsInputs",
            "fx_inputs.Inputs.HasInputs",
        ),
        ("fx_command.Query.QueryRow",),
    ),
    Section(
        "`views`",
        "A view is a transaction, run whole at one state of the order; it changes nothing.",
        (
            "fx_views_command.Rows.views_command",
            "fx_inputs.Reads.LetsRun",
            "fx_inputs.Views.HasViewsInputs",
            "fx_command.Out.IsProperOut",
        ),
        ("fx_views.Views.IsView",),
    ),
    Section(
        "`audit`",
        "The verdict says whether a text is the report of a complete order, with retries that this"
        " order can have had; or it is the first fault.",
        (
            "fx_commands.Audits.Rows.audit_query",
            "fx_inputs.Reads.LetsInputs",
            "fx_inputs.Inputs.HasInputs",
        ),
        ("fx_audit.Audits.IsTrueReport",),
    ),
    Section(
        "Disks",
        "These definitions say what a machine that stops may leave of a file.",
        ("fx_durable::disk::Disk",),
        ("fx_durable.Disk.MayLeave", "fx_durable.Disk.Torn"),
    ),
    Section(
        "`journal`",
        "These definitions say what the file JOURNAL spells, whenever the machine stops.",
        (
            "fx_run_commands.Journals.Rows.JournalRow",
            "fx_run_commands.Journals.Rows.KeepsJournal",
            "fx_inputs.Reads.IsProperRun",
        ),
        ("fx_durable.Journal.reading", "fx_journaling.Kept.LeavesEither"),
    ),
    Section(
        "`recover`",
        "OUT holds the folder after the commits that a journal keeps.",
        (
            "fx_commands.Recoveries.Rows.RecoverRow",
            "fx_inputs.Reads.LetsRun",
            "fx_inputs.Reads.IsProperRun",
            "fx_commands.Recoveries.Rows.HasJournal",
        ),
    ),
    Section(
        "`gen` and `large`",
        "`gen` writes a case that a number gives. `large` runs that case and sums up what came out.",
        (
            "fx_large_commands.GenRows.gen_making",
            "fx_command.Table.making_only",
            "fx_large_commands.LargeRows.large_making",
        ),
    ),
    Section(
        "The call",
        "The words choose the command, and with it the table that holds.",
        ("fx_top::top::top",),
        ("fx_top::top::top", "fx_top.Rows.Row"),
    ),
)

LAWS_AT = {
    "fx_read_report::laws::quotes_are_readable": "The report",
    "fx_read_report::laws::values_are_readable": "The report",
    "fx_read_report::laws::reports_are_readable": "The report",
    "fx_laws::reports::orders_are_spelled": "The report",
    "fx_laws::tokens::one_tree": "Texts: tokens and trees",
    "fx_laws::tokens::one_reading": "Texts: tokens and trees",
    "fx_lex::lexer::one_reading": "Texts: tokens and trees",
    "fx_parse::laws::one_reading": "Texts: tokens and trees",
    "fx_expr::laws::a_value_has_its_expressions_shape": "Expressions",
    "fx_spec::laws::a_call_stands_for_its_body": "Values of descriptions",
    "fx_spec::shapes::a_described_value_has_its_shape": "Values of descriptions",
    "fx_spec::shapes::a_root_value_has_its_shape": "Values of descriptions",
    "fx_spec::shapes::places_are_well_shaped": "Places",
    "fx_spec::shapes::a_fetched_value_has_its_shape": "Moves and fetches",
    "fx_spec::shapes::a_fetch_gives_its_shape": "Moves and fetches",
    "fx_spec::shapes::a_whole_value_has_its_shape": "Moves and fetches",
    "fx_spec::laws::worked_transactions": "Transactions, run whole",
    "fx_folder::laws::folders_are_loaded": "The folder of a filestore",
    "fx_laws::folders::loaded_folders_stay": "The folder of a filestore",
    "fx_laws::folders::saved_folders_are_same": "The folder of a filestore",
    "fx_laws::folders::folders_are_what_they_load_as": "The folder of a filestore",
    "fx_laws::folders::folders_are_of_one": "The folder of a filestore",
    "fx_machine::laws::the_conflicts_of_a_run_are_its_retries": "The machine of looks and settles",
    "fx_laws::moves::moves_lead_to_places": "Moves and fetches",
    "fx_laws::pairs::what_is_not_consulted_stays": "Transactions, run whole",
    "fx_laws::pairs::transactions_apart_commute": "Transactions, run whole",
    "fx_laws::orders::neighbours_apart_may_swap": "States, orders, retries",
    "fx_spec::laws::a_transaction_depends_on_its_way": "Transactions, run whole",
    "fx_machine::progress::a_transaction_looks_at_paths_alone": "Transactions, run whole",
    "fx_laws_above::reports::a_run_begins_in_one_way": "The claim",
    "fx_laws::filestores::directories_list_what_stands": "Filestores",
    "fx_laws::moves::neighbours_come_back": "Moves and fetches",
    "fx_laws::moves::steps_reach_each_element": "Moves and fetches",
    "fx_laws::values::what_is_evaluated_or_fetched_can_be_stored": "Edits",
    "fx_laws::words::a_job_tells_its_words": "The words",
    "fx_laws_above::twice::what_is_said_twice_is_the_same": "The folder of a filestore",
    "fx_laws_above::twice::numerals_are_the_limits": "The folder of a filestore",
}

EXAMPLES = (
    "fx_laws::limits",
    "fx_laws::retries",
    "fx_laws::scripts",
    "fx_laws::vectors",
    "fx_folder::laws::deep_examples",
    "fx_spec::laws::worked_transactions",
    "fx_store::laws::resolution_examples",
    "fx_zip::laws::a_worked_walk",
)

PLAN = Plan(TOP, HEADLINE, SECTIONS, (TRACED, WATCHED), LAWS_AT, EXAMPLES)
