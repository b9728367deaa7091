"""Whose each definition of docs/statement/ is, set by hand: a standard's, this device's, or neither's."""

from typing import Dict, List

# by their files: S, a standard has it in a section; SP, a standard has it, and leaves a choice that this device makes; P, this device's
# own, its orders of checks among them; -, nothing to compare: a word by which others are put, or what is claimed
MARKS: Dict[str, str] = {
    "common_definitions/specs/Checks.antt": "-: demand first_failed unless_failed",
    "common_definitions/specs/Readings.antt": "-: ◌>>=◌ with_front unless_fault",
    "zone_state/specs/State.antt": "S: code_of is_open is_active is_cleared",
    "zone_state/specs/Status.antt": "S: type_number",
    "zone_state/specs/Transition.antt": "S: action_of transition",
    "zone_state/specs/Zone.antt": (
        "S: write_refusal after_write written_state; SP: fits_state checks_of_write; P: state_of_fault fault_refusal; -: "
        "CountedZone IsZone write_check"
    ),
    "zone_state/src/action.rt": "S: Action",
    "zone_state/src/state.rt": "S: ZoneState; P: FaultState",
    "zone_state/src/status.rt": (
        "S: StatusType Status SUCCESS INVALID_COMMAND_OPCODE INVALID_FIELD_IN_COMMAND INVALID_NAMESPACE_OR_FORMAT "
        "LBA_OUT_OF_RANGE ZONE_BOUNDARY_ERROR ZONE_IS_FULL ZONE_IS_READ_ONLY ZONE_IS_OFFLINE ZONE_INVALID_WRITE "
        "TOO_MANY_ACTIVE_ZONES TOO_MANY_OPEN_ZONES INVALID_ZONE_STATE_TRANSITION; P: ZONE_HELD NO_SUCH_PROGRAM "
        "PROGRAM_REFUSED NO_RUN_FREE SOURCE_NOT_WRITTEN DESTINATION_NOT_OPEN DESTINATION_LACKS_ROOM WANT_OF_MEMORY "
        "PROGRAM_TRAPPED SOURCE_IS_DESTINATION PROGRAM_IN_USE"
    ),
    "zone_resources/specs/Admission.antt": (
        "S: wanted_of IsWithin; SP: may_close admission open_admission; P: zone_to_close; -: is_implicitly_opened"
    ),
    "zone_resources/specs/Counts.antt": "S: open_count active_count; -: count_in",
    "zone_resources/src/admission.rt": "S: Limits; -: Wanted",
    "image_store/specs/Blocks.antt": "-: block_count as_blocks",
    "image_store/specs/Geometry.antt": "S: Shape; P: IsShape; -: zone_block_at",
    "image_store/specs/Namespace.antt": (
        "S: ZoneWithBlocks ZonedNamespace IsWithinLimits; -: no_zone zone_at with_zone counted counted_zones grown grown_at "
        "appended arrived with_state namespace_with all_empty shape IsNamespace"
    ),
    "image_store/src/geometry.rt": "P: MOST_ZONES MOST_ZONE_BLOCKS MOST_BYTES; -: ZoneBlock",
    "nvme_entry/specs/Dwords.antt": "S: dword",
    "nvme_entry/specs/Entry.antt": (
        "S: fuse_of send_of identifier_of namespace_identifier starting_lba asked_blocks; SP: dwords_of opcode_of receive_of "
        "command_of; P: run_command_of load_of result_of asked entry_checks decoded_by decoded"
    ),
    "nvme_entry/specs/Filter.antt": "S: filter_of lists",
    "nvme_entry/src/filter.rt": "S: ZoneFilter",
    "nvme_entry/specs/Completion.antt": "S: status_dword dwords completion_bytes",
    "nvme_entry/specs/Descriptor.antt": "S: has_write_pointer described descriptor_bytes type_and_state; SP: pointer_told",
    "nvme_entry/specs/Report.antt": (
        "S: descriptor report_header listed_zones matching fitting listed; SP: report; -: descriptor_at"
    ),
    "nvme_entry/src/completion.rt": "SP: Completion",
    "nvme_entry/src/descriptor.rt": "S: DESCRIPTOR_BYTES; SP: ZoneDescriptor",
    "nvme_entry/src/report.rt": "S: REPORT_HEADER_BYTES",
    "zns_commands/specs/Address.antt": (
        "S: write_pointer; -: block_total zone_block_in zone_number zone_offset counted_zone_at"
    ),
    "zns_commands/specs/Append.antt": "S: assigned_lba append_effect; SP: append_checks; -: TakesBlocks",
    "zns_commands/specs/Effect.antt": "-: Effect refused_effect success_effect concluded",
    "zns_commands/specs/Meaning.antt": "-: checks_of refusal_of effect_of meaning",
    "zns_commands/specs/Read.antt": "S: read_refusal read_effect; SP: blocks_read read_checks",
    "zns_commands/specs/Receive.antt": "S: receive_effect; SP: receive_checks",
    "zns_commands/specs/Resources.antt": "-: room_for gives_way closed",
    "zns_commands/specs/Send.antt": (
        "S: room_of zone_effect takes swept all_effect send_effect; SP: zone_checks; P: held_among send_checks all_fit "
        "all_checks; -: led_to gives_way_to taken_among"
    ),
    "zns_commands/specs/Write.antt": "S: with_written write_effect; SP: write_checks",
    "instruction_set/specs/Codes.antt": (
        "S: size_with signed_size_with operation_with swap_with swap_size_with relations relation_with has_variants "
        "plain_operations variant_with extension_with; -: width_eq"
    ),
    "instruction_set/specs/Instruction.antt": (
        "S: target immediate_word size_of signed_size_of access_of destination_register distance_of; P: is_emit; -: writes"
    ),
    "instruction_set/specs/Program.antt": "S: is_wide slots_taken slots_of; SP: IsProgram; -: instruction_at instruction_count",
    "instruction_set/src/access.rt": "S: Access; -: AccessKind",
    "instruction_set/src/codes.rt": "S: LD LDX ST STX ALU JMP JMP32 ALU64 IMM MEM MEMSX NEG JA CALL EXIT",
    "instruction_set/src/instruction.rt": "S: Source Instruction",
    "instruction_set/src/operation.rt": "S: Width Operation SignExtension Swap SwapSize Size SignedSize Relation",
    "instruction_set/src/register.rt": "S: Register",
    "program_meaning/specs/Word.antt": (
        "S: bits low_bits signed unsigned count extended reversed computed relates is_taken; SP: result_of reordered; -: "
        "rust_width"
    ),
    "program_meaning/src/word.rt": "S: Arithmetic",
    "common_definitions/specs/Bytes.antt": "-: AreBytes field spliced padded pieces",
    "program_meaning/specs/Memory.antt": (
        "S: truncated loaded stored; P: Memory area_bytes IsMemory byte_in byte_at lies_in area_offset_in area_offset_of "
        "bytes_from with_bytes stored_at"
    ),
    "program_meaning/specs/State.antt": "P: at_start; -: State IsState",
    "program_meaning/src/area_offset.rt": "-: AreaOffset",
    "program_meaning/specs/BlockRun.antt": "P: continued block_run_of; -: BlockRun ran state_after_steps",
    "program_meaning/specs/Cause.antt": (
        "S: is_exit next_slot; SP: hinders; P: cause_number is_nowhere accessed loads_outside "
        "stores_outside calls_unknown emits_outside emits_badly causes least_cause; -: slot_in is_load"
    ),
    "program_meaning/specs/Effect.antt": (
        "S: operand sign_extended effect; SP: address_from with_frame; P: emitted; -: register put with_memory bytes_at"
    ),
    "program_meaning/specs/Step.antt": "S: after; SP: step_of; -: StepEnd slot_number decided step_at",
    "program_meaning/src/cause.rt": "SP: Cause",
    "program_meaning/src/end.rt": "-: End",
    "common_definitions/specs/Below.antt": "-: below",
    "nvme_entry/specs/ProgramSlot.antt": "P: program_slot_of",
    "nvme_entry/src/command.rt": (
        "S: StandardCommand; SP: MOST_TRANSFER Opcode Command; P: RunCommand LoadCommand; -: BlockCount DwordCount"
    ),
    "nvme_entry/src/program_slot.rt": "P: PROGRAM_SLOTS ProgramSlot",
    "program_interface/specs/Area.antt": "P: address_of length_of is_writable",
    "program_interface/specs/Context.antt": "P: context_bytes",
    "program_interface/specs/Frame.antt": "P: frame",
    "program_interface/specs/Registers.antt": "SP: registers_at_start",
    "program_interface/specs/RunSizes.antt": "P: Sizes AreSizes",
    "program_interface/src/area.rt": "P: Area CONTEXT_BYTES STACK_BYTES SCRATCH_BYTES",
    "program_interface/src/context.rt": "P: Context",
    "program_interface/src/frame.rt": "P: EMIT FRAME_LENGTH_BYTES",
    "program_interface/src/registers.rt": "S: REGISTERS; SP: CLEARED_REGISTERS",
    "program_meaning/specs/Granted.antt": (
        "-: IsGranted AccessesGranted flat_memory FlatState flat_state flat_bytes with_flat_bytes flat_loaded flat_stored "
        "flat_effect flat_after flat_step flat_after_steps KeepsToGrantedAreas"
    ),
    "program_meaning/specs/Laws.antt": "-: is_within",
    "program_meaning/specs/TrapFree.antt": "-: IsExit Exits NeverTraps",
    "emit_append/specs/Need.antt": "P: need",
    "emit_append/specs/Packing.antt": "P: Layout behind beginning laid_out block_fillings packed all_but_last released",
    "device_meaning/specs/Admission.antt": (
        "P: Loaded program_in limit_in SameProgram granted_sizes sizes_in source_zone destination_zone "
        "admission_checks run_refusal written_from source_blocks task_by task_of"
    ),
    "zone_resources/specs/Holds.antt": "S: forgets; P: names is_source is_destination is_held refuses no_holds",
    "zone_resources/src/holds.rt": "P: RUNS Holds",
    "device_meaning/specs/BlockRuns.antt": (
        "P: Task context block_run_over block_run scratch_after block_runs_from goes_on until_ended AreScratch no_scratch "
        "block_runs_of frames_of last_scratch start_of"
    ),
    "device_meaning/specs/Outcome.antt": (
        "P: Ending success Turn Emitted nothing_emitted with_group coming_to middle_turn succeeded trapped last_turn_by "
        "last_turn turns_after outcome appended_by ending_of Succeeds EndsWithLast success_of Progress emitted_by rest"
    ),
    "device_meaning/specs/Happenings.antt": (
        "P: load_checks just_loaded judged sizes_for load_unless loading result_by giving_result admitted_place why_not_run "
        "start_by starting added keeping place_left slots_left turn_reply turn_state take_turn turned_at turned fault_reply "
        "faulting commanded submitted happens"
    ),
    "device_meaning/specs/View.antt": "-: Active to_come turns_of place_of seen",
    "device_events/specs/Replies.antt": "-: ReplyWithData without_data data_length",
    "device_events/specs/ToldEvents.antt": "P: ToldEvent; -: told_of",
    "device_events/src/completion_entry.rt": "S: CompletionEntry",
    "device_events/src/event.rt": "P: Event",
    "device_events/src/reply.rt": "P: Reply",
    "device_meaning/specs/EventReplies.antt": (
        "S: IsCompletionOf completed completion_reply completion; P: refused idle; -: Happening is_completion "
        "CompletesOnlyWith Submission submission_of"
    ),
    "device_meaning/specs/State.antt": (
        "P: Place State new_state loaded_at place_at free_place source_of destination_of holds_at uses in_use with_namespace "
        "with_slot with_place"
    ),
    "zns_commands/specs/Fault.antt": "P: zone_fault_refusal faulted_by faulted",
    "zone_state/src/zone.rt": "P: FaultRefused",
    "device_meaning/specs/Draining.antt": (
        "P: lowest_run AreLowest turns_left_at turns_left; -: replies_to_turns state_after_turns Drains HasDrained "
        "HasStoppedDraining"
    ),
    "device_meaning/specs/Events.antt": (
        "-: Occurrence CarriesBytes AreEvents replies_to state_after AreOccurrencesOf HasHappened HasServed HasStopped"
    ),
    "device_laws/specs/Laws.antt": "-: EmptyIsReached",
    "device_meaning/specs/Beginning.antt": "-: WasBegun destination_in MayGoOn WasLoaded MayBegin",
    "device_meaning/specs/Reached.antt": "-: IsReached NewIsReached",
    "program_interface/specs/BlockSize.antt": "P: is_block_size IsBlockSize",
    "program_interface/src/block_size.rt": "P: BLOCK_SIZES LARGEST_BLOCK BlockSize",
    "pushdown/specs/Pushdown.antt": (
        "-: is_turn_of own_turns IsAdmitted blocks_at no_turn task source block_runs place now done turn next NoTurnTraps "
        "FewSteps StaysInGrantedAreas ChangesDestinationAlone DoesItsTurns TellsFramesAndBlocks IsPushedDown IsLeftOfNew "
        "PushesDownIn Pushdown PushdownFromAnyBeginning SoundJudgesPushDown"
    ),
    "device_meaning/specs/Laws.antt": "-: RoomIn IsAppended IsAcceptedIn IsSoundState StatesAreSound NoReplyIsTrapped",
    "device_laws/specs/Witness.antt": "-: interleaved AppendsBetween PushdownIsMet",
    "instruction_set/specs/Spelling.antt": (
        "S: arithmetic_class jump_class size_code signed_size_code access_opcode operation_opcode operation_code END "
        "operation_offset extension_offset extension_width swap_opcode kept_bits relation_code source_bit source_register "
        "source_immediate slot first_slot second_slot slots_spelled spelling HasValue Fits instructions_of program_bytes; "
        "SP: slot_bytes"
    ),
    "instruction_set/src/fields.rt": "SP: Fields",
    "program_interface/src/lib.rt": "P: MOST_SLOTS",
    "device_meaning/specs/Judging.antt": (
        "P: ProgramRefused refused_for_fault refused_for_reason accepted_unless judged_by judge_by interval_judge; -: "
        "Judge IsSoundJudge JudgedIsSpelled"
    ),
    "common_definitions/specs/FirstCheck.antt": "-: NoneFails FailsFirst",
    "ebpf_decode/specs/Fault.antt": "P: fault_number",
    "ebpf_decode/specs/FirstFault.antt": "-: slot_checks IsTold Begins IsOfLength IsOfSlot IsBehindLength IsFirstFault",
    "ebpf_decode/specs/Laws.antt": "-: SpelledIsDecoded BytesHaveOneProgram DecodedIsSpelled FaultIsFirst",
    "ebpf_decode/specs/Opcodes.antt": (
        "S: operand_of load_immediate_opcode load_opcode store_immediate_opcode store_register_opcode arithmetic_opcode "
        "branch_opcode jump_opcode jump_long_opcode classes opcode_named fields_used uses; -: is_immediate is_register"
    ),
    "ebpf_decode/specs/Reading.antt": (
        "S: fields_at is_load_immediate load_or_store jump slots_at has_no_register has_unused has_more source_of "
        "immediate_of signed_move instruction_with; SP: is_left_out; P: checks length_checks at_first_slot; -: first_fault "
        "read_named read begun begins_wide then_read read_slots length_fault decoded_program"
    ),
    "ebpf_decode/src/fault.rt": "SP: FaultKind; P: Fault",
    "ebpf_decode/src/opcode.rt": "S: Operand; SP: Opcode LeftOut; -: Uses",
    "accepted_programs/specs/Accepted.antt": (
        "P: reason_number all_reasons begins_at goes_back leads_nowhere turns_away falls_off refused_at is_record "
        "area_accessed loads_outside stores_outside ends_inside fits_by_sum record_fits emits_from_nowhere emits_amiss "
        "passes_limit fails reason_of refusal_at refusal_below refusal"
    ),
    "accepted_programs/specs/Facts.antt": "P: slot_behind fact greatest least_length greatest_length area_of",
    "accepted_programs/specs/FirstRefusal.antt": "-: HasFacts IsPassed IsFirstRefusal",
    "accepted_programs/specs/Laws.antt": "-: AcceptedNeverTraps RefusalIsFirst",
    "accepted_programs/src/facts.rt": "P: CELL_BYTES CELLS Facts",
    "accepted_programs/src/reason.rt": "SP: Reason; P: Refusal",
    "accepted_programs/src/sums.rt": "P: Sum Fit",
    "word_domain/specs/Domain.antt": "-: Operations",
    "word_domain/src/bounds.rt": "-: Bounds",
    "word_domain/src/offsets.rt": "-: Offsets",
    "common_definitions/specs/Failures.antt": "-: CountsFailure",
    "emit_append/specs/Unpacking.antt": (
        "P: Reading zeros_at frame_length frame_record after_frame frames_at output_block_at output_blocks_at unpacked"
    ),
    "record_questions/src/question.rt": "P: Sign ByteOrder Field Comparison Operand Predicate ByteRange Tally Grouping Question",
    "record_questions/specs/Question.antt": (
        "P: number_of number_in signed_by value_of operand_value compares matches records_in matching bytes_in cut cuts answer"
    ),
    "record_questions/specs/Tallies.antt": (
        "P: word_in rank_of value_at rank_in tally_step tallied_from groups words_of group_of tallied_in tallied_of is_of records_of "
        "tally_from word_at; -: IsLeast IsGreatest total_of WordsAreTallied TalliesAreTotals"
    ),
    "record_questions/specs/Asked.antt": (
        "P: IsField IsNumber IsOperand IsPredicate IsRange AreRanges emitted_bytes stacked_bytes IsTally AreTallies IsGrouping "
        "IsQuestion"
    ),
    "question_runs/specs/Loaded.antt": "-: IsProgramOf HasQuestion NoEventLoads load_by QuestionWasLoaded CompiledQuestionsLoad",
    "question_compiler/specs/Compiled.antt": "-: IsCompiled",
    "question_compiler/specs/Fault.antt": "P: records_end emitted_end frame_bytes most_emitted IsFaultOf; -: HasNoFault",
    "question_compiler/src/fault.rt": "P: QuestionFault",
    "record_questions/specs/Code.antt": "P: counted",
    "question_words/src/fault.rt": "P: FaultKind WordFault",
    "question_words/src/reading.rt": "P: MOST_BYTES",
    "question_words/specs/Condition.antt": "P: Condition said",
    "question_words/specs/Cutting.antt": "P: is_word_byte is_pair symbol_width quoted_width width Cut cuts_after cuts",
    "question_words/specs/Fault.antt": "-: refused at",
    "question_words/specs/Field.antt": (
        "P: sign_letter shape_text field_text sign_of shape_of offset_in offset_of typed_of field_in field_of"
    ),
    "question_words/specs/Layout.antt": "P: field_named",
    "question_words/specs/LayoutText.antt": "P: is_name_byte begins_name is_taken_word is_field_name",
    "question_words/specs/Laws.antt": (
        "-: IsField IsOperand IsCondition ReadsBy ReadsAs WordsReadBack row_text Precedence WordsHavePrecedence OtherBytesRead "
        "named_text NamesRead Says range_text RangesRead rest_text set_text either_of SetsRead quoted quoted_text QuotesRead "
        "TextsRead IsLayout ReadIsCondition"
    ),
    "question_words/specs/Number.antt": "P: numeral_of magnitude_of literal_of",
    "question_words/specs/Operand.antt": (
        "P: comparison_text comparison_of least_of greatest_of is_of_type number_for is_same_sign field_for begins_number "
        "operand_word operand_of"
    ),
    "question_words/specs/Printing.antt": "P: bytes_text not_text part_text condition_text",
    "question_words/specs/Reading.antt": (
        "P: Open Stage State settled with_or closed all_of subject_in subject_of wanted is_there decoded bytes_written "
        "bytes_before_quote bytes_of bytes_condition joined in_state listed bounded begun next_within compared is_equal "
        "sized text_at text_against operand_against against next is_blank step wanted_within finished read_words "
        "at_start condition_of"
    ),
    "question_words/specs/Within.antt": "P: range_condition one_condition more_condition bound_of Within",
    "text_lines/specs/Cut.antt": "P: cut_at",
    "text_lines/specs/Number.antt": "P: number_below decimal_of",
    "pushdown/specs/ReadBack.antt": (
        "-: Submits IsCompleted LoadSucceeds NoRunEnds ReadsGive NoEventClears ResultGives NoEventReplaces"
    ),
    "question_runs/specs/Answered.antt": (
        "-: answer_of AreRead StayRead StaysResult source destination records tallies last IsAnswered AnswersIn "
        "RunsAnswer QuestionsAreAnswered"
    ),
    "question_runs/specs/Words.antt": "-: matches_of tallies_of ComesTo IsWordOf HasWords ResultsHaveWords",
}

# the sections of a standard that comments don't name, by their files and names
SECTIONS: Dict[str, Dict[str, str]] = {
    "device_meaning/specs/EventReplies.antt": {
        "completion_reply completion": "NVMe Base 2.0, 3.3.3.2",
    },
    "ebpf_decode/specs/Opcodes.antt": {
        "fields_used uses": "RFC 9669, 4 and 5",
        "opcode_named": "RFC 9669, 3.3",
    },
    "ebpf_decode/specs/Reading.antt": {
        "signed_move": "RFC 9669, 4.1",
        "instruction_with": "RFC 9669, 4 and 5",
        "has_more": "RFC 9669, 3.2",
        "slots_at has_no_register has_unused": "RFC 9669, 3.1",
        "source_of": "RFC 9669, 4",
        "immediate_of": "RFC 9669, 5.4",
    },
    "instruction_set/specs/Codes.antt": {
        "plain_operations variant_with extension_with": "RFC 9669, 4.1",
    },
    "instruction_set/specs/Instruction.antt": {
        "distance_of": "RFC 9669, 4.3",
        "destination_register": "RFC 9669, 4 and 5",
    },
    "instruction_set/specs/Program.antt": {
        "slots_of": "RFC 9669, 3.2",
        "IsProgram": "RFC 9669, 3",
    },
    "nvme_entry/specs/Completion.antt": {
        "completion_bytes": "NVMe Base 2.0, 3.3.3.2",
    },
    "nvme_entry/specs/Entry.antt": {
        "identifier_of namespace_identifier": "NVMe Base 2.0, 3.3.3.1",
        "starting_lba asked_blocks": "NVM Command Set 1.0, 3.2.4 and 3.2.6; ZNS 1.1, 3.4",
        "command_of": "NVM Command Set 1.0, 3.2; ZNS 1.1, 3.4",
    },
    "nvme_entry/specs/Filter.antt": {
        "lists": "ZNS 1.1, 3.4.2",
    },
    "program_meaning/specs/Effect.antt": {
        "effect": "RFC 9669, 4 and 5",
    },
    "program_meaning/specs/Memory.antt": {
        "truncated loaded stored": "RFC 9669, 5.1",
    },
    "program_meaning/specs/Step.antt": {
        "after": "RFC 9669, 4 and 5",
    },
    "zns_commands/specs/Append.antt": {
        "append_checks": "NVMe Base 2.0, 3.3.3.2 and 5.17; ZNS 1.1, 3.4.1",
    },
    "zns_commands/specs/Read.antt": {
        "read_checks": "NVMe Base 2.0, 3.3.3.2 and 5.17; ZNS 1.1, 3.3.2",
    },
    "zns_commands/specs/Receive.antt": {
        "receive_checks": "NVMe Base 2.0, 3.3.3.2 and 5.17",
    },
    "zns_commands/specs/Send.antt": {
        "zone_checks": "NVMe Base 2.0, 3.3.3.2; ZNS 1.1, 3.4.3",
    },
    "zns_commands/specs/Write.antt": {
        "write_checks": "NVMe Base 2.0, 3.3.3.2 and 5.17; ZNS 1.1, 2.1.1 and 3.3.6",
    },
    "zone_resources/specs/Admission.antt": {
        "open_admission IsWithin": "ZNS 1.1, 2.1.1",
    },
    "zone_resources/specs/Counts.antt": {
        "active_count": "ZNS 1.1, 2.1.1",
    },
    "zone_state/specs/Zone.antt": {
        "written_state": "ZNS 1.1, 2.1.1.3",
    },
}


def mark_of(file: str, name: str) -> str:
    """The mark of a definition of a file.

    >>> mark_of("zone_state/specs/Status.antt", "type_number")
    'S'
    """
    for part in MARKS.get(file, "").split("; "):
        mark, _, names = part.partition(": ")
        if name in names.split():
            return mark
    raise LookupError(f"{file}: {name} has no mark in tools/pages/statement_marks.py")


def section_of(file: str, name: str) -> str:
    """The section of a standard that has a definition of a file, where no comment names it.

    >>> section_of("nvme_entry/specs/Filter.antt", "lists")
    'ZNS 1.1, 3.4.2'
    >>> section_of("zone_state/specs/Status.antt", "type_number")
    ''
    """
    found = [section for names, section in SECTIONS.get(file, {}).items() if name in names.split()]
    return found[0] if found else ""


def marked_names() -> Dict[str, List[str]]:
    """The names that have a mark, by their files."""
    return {file: [name for part in marks.split("; ") for name in part.split(" ")[1:]] for file, marks in MARKS.items()}
