"""At which words a page hands over to another: what stands below them, stands there.

A page has the words that its clauses rest on, down to the homes of other pages. This list is made by hand, so that no
page is longer than 700 lines and each is about one thing. What it lacks shows: a word without a home stands on each page
that rests on it.
"""

HOMES = {
    "p01": "oc_top/Works.Works oc_command/answer.rt.Answer oc_power/supply.rt.Supply",
    "p02": "oc_top/Sources.ReadsAs oc_top/Sources.ReadsIn oc_top/Answers.IsJudged "
           "oc_command/Commands.command_of",
    "p04": "oc_top/Headline.IsRun oc_top/Answers.IsPrint oc_top/Verdict.regions_of "
           "oc_top/Verdict.listing_of oc_report/Runs.runs oc_items/item.rt.Item oc_items/Text.full_text "
           "oc_items/Text.report_text oc_items/Told.item_of",
    "p05": "oc_top/Headline.IsHonestThroughout oc_honest/Honest.IsHonest oc_meaning/Run.source_run "
           "oc_meaning/Run.marked_run oc_meaning/Run.call_to oc_meaning/Exec.stmts_run",
    "p06": "oc_items/Erase.HasNoOffInside oc_items/Erase.erase oc_items/Erase.kept "
           "oc_items/Erase.kept_samples oc_items/Erase.marked",
    "p07": "oc_honest/Timely.IsTimely oc_meaning/Uses.is_use",
    "p08": "oc_honest/Honest.IsWhole oc_outage/Honest.IsHonest oc_outage/Honest.IsWhole",
    "p09": "oc_bounds/Headway.Suffice oc_bounds/Headway.PeriodsKeep oc_bounds/Attempts.AttemptsClose "
           "oc_outage/Kept.CountIsKept oc_bounds/Bounds.IsBounded",
    "p10": "oc_top/Audited.IsAudit oc_top/Audited.IsVouched oc_top/Headline.IsReportedRun",
    "p11": "oc_report/Images.IsExecution oc_report/Images.IsExecuted oc_top/Verdict.image_of "
           "oc_isa/Run.IsSound oc_isa/Table.device_of",
    "lex": "oc_lex/Tokens.AreTokens oc_lex/Tokens.HasFault oc_lex/Stands.IsName "
           "oc_lex/Spellings.word_spelling oc_lex/token.rt.Token oc_lex/token.rt.Kind "
           "oc_lex/token.rt.Word oc_lex/token.rt.Mark",
    "parse": "oc_grammar/Programs.SpellsProgram oc_grammar/Depths.IsSyntax oc_grammar/Depths.IsDepth "
             "oc_grammar/Lexemes.lexemes_in oc_tree/View.program_view",
    "check": "oc_tree/Broken.broken",
    "expand": "oc_tree/Expansion.expansion oc_tree/Expansion.program_groups oc_tree/Tree.TExpr "
              "oc_tree/Tree.TArg oc_tree/Tree.TCall oc_tree/Tree.TArgs oc_tree/Tree.TRight "
              "oc_tree/Tree.TKind oc_tree/Tree.TElse oc_tree/Tree.TStmt oc_tree/Tree.TBlock "
              "oc_tree/Tree.TStmts oc_tree/Tree.TFunction oc_tree/Tree.TProgram oc_tree/tree.rt.Program "
              "oc_tree/tree.rt.BinaryOp oc_tree/tree.rt.UnaryOp oc_tree/tree.rt.Scalar "
              "oc_tree/tree.rt.ValueKind oc_tree/tree.rt.Passing oc_tree/tree.rt.Param "
              "oc_tree/tree.rt.NvDecl oc_tree/tree.rt.Decl oc_tree/tree.rt.DeclKind oc_tree/tree.rt.VarId "
              "oc_tree/Form.InForm oc_tree/Pulls.own_pulls oc_tree/Pulls.own_skips oc_tree/Parts.own_parts",
    "summaries": "oc_flow/Flow.flows oc_flow/Flow.brings oc_effects/Effects.effects "
                 "oc_effects/Effects.effects_at",
    "requirements": "oc_needs/Requirements.requirements oc_needs/Policies.policies",
    "infer": "oc_region/Regions.marked oc_tree/Places.block_placed oc_tree/Places.program_placed "
             "oc_tree/Places.placed oc_tree/Places.block_of oc_tree/Places.Placed oc_tree/Places.Place",
    "check_blocks": "oc_top/Checked.IsCheck oc_top/Checked.IsSafe",
    "may_write": "oc_writes/Targets.may_write oc_tree/Assigned.reaches_assign oc_writes/Targets.region_targets "
                 "oc_tree/Calls.call_links oc_tree/Calls.reaches_mention oc_tree/Calls.own_calls "
                 "oc_tree/Calls.function_place",
    "budgets": "oc_budget/Budgets.budgets oc_budget/Bounding.bounds_of oc_tree/Weight.weights "
               "oc_tree/Stack.stack_words oc_tree/Stack.frame oc_tree/Limits.statement_passes "
               "oc_tree/Limits.item_passes oc_tree/Limits.counted oc_tree/Nodes.program_nodes",
    "read_report": "oc_audit/Findings.IsFinding",
    "compile": "oc_code/Code.code_of oc_isa/Image.Parts oc_isa/instr.rt.Instr oc_isa/image.rt.RawImage",
    "read_image": "oc_verify/Reading.AreImage oc_verify/Rules.Broken oc_verify/Reads.IsBad "
                  "oc_isa/Bytes.image_bytes",
    "read_sensors": "oc_sensors/File.sensor_file oc_power/Power.power_file oc_sensors/History.history",
    "run": "oc_isa/Power.power_run oc_isa/Power.one_period oc_isa/Power.tick_on oc_isa/Power.first_world "
           "oc_isa/Run.continuous_run oc_tree/Word.sum_of oc_tree/Word.quotient_of oc_tree/Word.unary_of "
           "oc_tree/said.rt.Said",
}
