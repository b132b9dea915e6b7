"""Examples: what definitions give for some values, which the prover checks, and which definitions must have one."""
import re

from claim.resolve import links_of, targets
from claim.text import Unplaced
from claim.words import Member, Word

# An example is named after its definition; where that has several, something stands behind.
NAME = re.compile(r"(.+?)_example(?:_\w+)?")

# Definitions that decide what a promise says, by their modules. Each must have an example.
DECIDING = """
    oc_items/Erase: erase marked kept kept_samples HasNoOffInside
    oc_items/Reports: IsPrefixOf EndsWith
    oc_items/Told: item_of
    oc_items/Text: item_line full_text
    oc_honest/Honest: IsWhole IsHonestSoFar IsHonest BreaksAt
    oc_honest/Timely: lived set_of AreTimely
    oc_outage/Honest: AreRead begun
    oc_outage/Kept: kept_after
    oc_meaning/Run: source_run marked_run
    oc_meaning/Exec: kind_run
    oc_meaning/Blocks: set_home
    oc_tree/Samples: union
    oc_tree/Word: is_word sum_of difference_of product_of quotient_of remainder_of unary_of
    oc_tree/Expansion: pulled left_expr expand_stmts stmts_groups expansion program_groups
    oc_tree/Broken: broken
    oc_tree/Rules: has_many_turns
    oc_tree/Places: block_of
    oc_tree/Marked: covers
    oc_flow/Flow: flows brings
    oc_needs/Policies: policies
    oc_needs/Sites: input_sites
    oc_needs/Requirements: requirements
    oc_region/Smallest: in_block common_block smallest
    oc_region/Regions: united marked
    oc_regcheck/Enough: is_covered first_open
    oc_writes/Targets: region_targets may_write
    oc_budget/Budgets: logged safe_for budgets
    oc_code/Code: code_of
    oc_isa/Table: act operand
    oc_isa/Run: continuous_run
    oc_isa/Power: power_run
    oc_isa/Bytes: number_bytes instr_numbers
    oc_isa/Listing: code_line
    oc_undo/Undo: undo has_entry
    oc_bounds/Attempts: steps_after Closes
    oc_bounds/Bounds: AreLong
    oc_bounds/Headway: least AddUp
    oc_ckpt/Saving: saved_words save_all
    oc_sensors/History: history
    oc_sensors/File: value_of sensor_row readings_of
    oc_power/Power: period_row power_of
    oc_rows/Numbers: number_of
    oc_rows/Rows: file_rows
    oc_lex/Bytes: begins_name in_name
    oc_lex/Tokens: AreTokens
    oc_grammar/Programs: SpellsProgram
    oc_grammar/Lexemes: lexeme_by
    oc_grammar/Fronts: mark_operator
    oc_grammar/Expressions: operators Spells
    oc_verify/Rules: laid_out names_exist judge
    oc_verify/Reading: number_at
    oc_audit/Files: lines
    oc_audit/Findings: IsFinding
    oc_command/Commands: command_of
    oc_command/Statuses: status_of line_of
    oc_report/Reports: answer_of text_of
    oc_report/RegionLines: region_line total_lines
    oc_top/Meant: program_marked program_code
    oc_top/Verdict: regions_of listing_of
"""


def examples_of(claim, deciding=DECIDING):
    """Finds the examples of the files `specs/*Examples.antt`, and gives each to the pages that have its definition, and
    the words that it alone speaks of to the first of these."""
    repository, pages = claim.repository, claim.pages.values()
    found = {}
    for example in all_examples(repository):
        found.setdefault(defined_by(example).key, []).append(example)
    for key, examples in found.items():
        if not any(word.key == key for page in pages for word in page.words):
            examples[0].source.fail(examples[0].start, f"no page has {key}, of which {examples[0].name} is an example")
    lacking = [spec for spec in specs_of(deciding) if repository.word(spec).key not in found]
    if lacking:
        raise Unplaced("\n".join(f"{spec} has no example" for spec in lacking))
    known = {key for page in pages for key in page.all} | {word.key for page in pages for _, own in page.laws for word in own}
    for page in pages:
        page.examples = {word.key: found[word.key] for word in page.words if word.key in found}
        for examples in page.examples.values():
            for example in examples:
                own = own_words(example, known)
                page.spoken += own
                known |= {word.key for word in own}


def specs_of(deciding):
    """Yields `crate/Module.word` of each word of a list with a line for each module."""
    for line in deciding.strip().splitlines():
        module, _, names = line.strip().partition(": ")
        yield from (f"{module}.{name}" for name in names.split())


def all_examples(repository):
    """Yields the examples of all files."""
    for path in sorted((repository.top / "crates").glob("*/specs/*Examples.antt")):
        source = repository.source(path.parent.parent.name, f"specs/{path.name}")
        yield from (word for word in source.words.values() if NAME.fullmatch(word.name))


def defined_by(example):
    """Returns the definition that an example is named after, and that its type speaks of."""
    source, name = example.source, NAME.fullmatch(example.name)[1]
    if name not in source.imports:
        source.fail(example.start, f"{example.name} is an example of nothing: the file brings in no {name}")
    word = next((target for target in spoken_of(example) if target.name == name), None)
    if word is None:
        source.fail(example.start, f"the type of {example.name} doesn't speak of {name}")
    return word


def spoken_of(example):
    """Returns the words that the type of an example names."""
    _, start, end = example.parts[0]
    named = (t.word if isinstance(t, Member) else t for at, _, t in links_of(example) if start <= at < end)
    return [target for target in named if isinstance(target, Word)]


def own_words(example, known):
    """Returns the words that the type of an example rests on and that aren't known."""
    own, todo = {}, spoken_of(example)
    while todo:
        word = todo.pop(0)
        if word.key not in known and word.key not in own:
            own[word.key] = word
            todo += targets(word)
    return list(own.values())
