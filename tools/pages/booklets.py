"""What tools/pages/statement.py is told of its booklets: where they begin, where they stop, and which sections have which definitions."""

import re
from dataclasses import dataclass, field
from typing import Dict, List, Optional, Tuple

from declared import Key

MEANING = "device_meaning/specs/"
# the law, whose premise is to be read too
LAW = ("pushdown/specs/Pushdown.antt", "SoundJudgesPushDown")

# what the booklets begin with; all that these name stands in one of them
ROOTS: List[Key] = [
    LAW,
    ("pushdown/specs/Pushdown.antt", "PushdownFromAnyBeginning"),
    (MEANING + "State.antt", "new_state"),
    (MEANING + "Reached.antt", "NewIsReached"),
    ("device_laws/specs/Laws.antt", "EmptyIsReached"),
    (MEANING + "Events.antt", "HasHappened"),
    (MEANING + "Events.antt", "HasServed"),
    (MEANING + "Events.antt", "HasStopped"),
    (MEANING + "Draining.antt", "HasDrained"),
    (MEANING + "Draining.antt", "HasStoppedDraining"),
    ("device_events/specs/Replies.antt", "data_length"),
    ("common_definitions/specs/Failures.antt", "CountsFailure"),
    (MEANING + "Laws.antt", "StatesAreSound"),
    (MEANING + "Laws.antt", "NoReplyIsTrapped"),
    ("device_laws/specs/Witness.antt", "PushdownIsMet"),
    (MEANING + "Judging.antt", "interval_judge"),
    (MEANING + "Judging.antt", "JudgedIsSpelled"),
    ("ebpf_decode/specs/Laws.antt", "SpelledIsDecoded"),
    ("ebpf_decode/specs/Laws.antt", "DecodedIsSpelled"),
    ("ebpf_decode/specs/Laws.antt", "BytesHaveOneProgram"),
    ("ebpf_decode/specs/Laws.antt", "FaultIsFirst"),
    ("accepted_programs/specs/Laws.antt", "AcceptedNeverTraps"),
    ("accepted_programs/specs/Laws.antt", "RefusalIsFirst"),
    ("question_runs/specs/Answered.antt", "QuestionsAreAnswered"),
    ("question_runs/specs/Answered.antt", "RunsAnswer"),
    ("question_runs/specs/Loaded.antt", "CompiledQuestionsLoad"),
    ("question_compiler/specs/Fault.antt", "HasNoFault"),
    ("question_runs/specs/Words.antt", "ResultsHaveWords"),
    ("record_questions/specs/Tallies.antt", "WordsAreTallied"),
    ("record_questions/specs/Tallies.antt", "TalliesAreTotals"),
    ("question_words/specs/Condition.antt", "said"),
    ("question_words/specs/Laws.antt", "WordsReadBack"),
    ("question_words/specs/Laws.antt", "WordsHavePrecedence"),
    ("question_words/specs/Laws.antt", "OtherBytesRead"),
    ("question_words/specs/Laws.antt", "NamesRead"),
    ("question_words/specs/Laws.antt", "RangesRead"),
    ("question_words/specs/Laws.antt", "SetsRead"),
    ("question_words/specs/Laws.antt", "QuotesRead"),
    ("question_words/specs/Laws.antt", "TextsRead"),
    ("question_words/specs/Laws.antt", "ReadIsCondition"),
]

# what is named there and stands in no booklet, each with the reason
CUT: Dict[Key, str] = {
    ("accepted_programs/specs/Facts.antt", "facts_at"): "what the verifier knows at a slot; None: no way leads there",
    ("interval_domain/specs/Intervals.antt", "intervals"): "the operations on facts that are intervals, by which the device judges",
    ("record_questions/specs/Code.antt", "question_program"): "the program that `compile` makes of a question",
}

# what some names are, where their own comment needs the one above it
SAID: Dict[str, str] = {
    "append_checks": "the checks of a Zone Append, in order",
    "append_effect": "the effect of a Zone Append: the data is written, and the completion says where",
    "AreScratch": "these are as many bytes as a scratch area has",
    "completion_bytes": "the bytes of a completion: its four dwords, of each the lowest byte first",
    "counted_zones": "all zones of a namespace, of each its state and the number of its written blocks",
    "destination_zone": "the zone that a run appends to",
    "frames_of": "the number of frames of some block runs",
    "identifier_of": "the command identifier of an entry: Command Dword 0, bits 31:16",
    "idle": "what a turn comes to whose number no run has: Idle, and nothing changes",
    "is_destination": "does an active run append to this zone?",
    "is_held": "does an active run read from this zone or append to it?",
    "LARGEST_BLOCK": "the largest size of a block, in bytes",
    "load_of": "the Load that the bytes of an entry name, if each field has a value that it may have",
    "outcome": "the turns of a run, of its task and its source blocks",
    "refused": "what a refused entry comes to: its completion, and nothing changes",
    "refuses": "do active runs hold this zone against the action?",
    "result_of": "the Result that the bytes of an entry name, if its field has a value that it may have",
    "run_command_of": "the Run that the bytes of an entry name, if each field has a value that it may have",
    "seen": "the place of a run that a device keeps: its queue, its zones, and the turns that are left of it",
    "why_not_run": "why a Run is refused, if it is: the status of the first check that fails",
    "with_place": "the state with this run at a place, or with none",
    "zone_number": "the number of the zone that contains a logical block",
    "zone_offset": "how many blocks a logical block lies after the lowest of its zone",
}


@dataclass(frozen=True)
class Section:
    """A section of a booklet: the files that stand there, and single definitions of files that stand elsewhere."""

    title: str
    files: str = ""
    names: Dict[str, str] = field(default_factory=dict)


@dataclass(frozen=True)
class Booklet:
    """A booklet: the name of its page, its title, and its sections in reading order."""

    name: str
    title: str
    sections: List[Section]


NAMESPACE = "image_store/specs/Namespace.antt"
HAPPENINGS = MEANING + "Happenings.antt"
ZONE = "zone_state/specs/Zone.antt"

COMMANDS = Booklet(
    "commands",
    "Commands and zones",
    [
        Section("Bytes and checks", r"common_definitions/"),
        Section("A zone", r"zone_state/"),
        Section("Open and active zones", r"zone_resources/"),
        Section("A namespace", r"image_store/"),
        Section("Entries, and the commands that they ask for", r"nvme_entry/(specs/(Entry|Dwords|Filter)|src/(command|filter))\."),
        Section("Completions and reports", r"nvme_entry/"),
        Section("What each command does", r"zns_commands/"),
    ],
)

RFC_9669 = Booklet(
    "rfc_9669",
    "RFC 9669",
    [
        Section(
            "Instructions and their codes",
            r"instruction_set/",
            {
                "instruction_set/specs/Spelling.antt": "arithmetic_class jump_class size_code signed_size_code access_opcode"
                " operation_opcode operation_code END operation_offset extension_offset extension_width swap_opcode kept_bits"
                " relation_code source_bit",
            },
        ),
        Section("Words", "", {"program_meaning/specs/Word.antt": "*", "program_meaning/src/word.rt": "*"}),
        Section(
            "Memory, and the state of the machine",
            r"program_interface/|program_meaning/(specs/(Memory|State)|src/area_offset)\.",
            {"common_definitions/specs/Bytes.antt": "spliced"},
        ),
        Section("A step, and a block run", r"program_meaning/"),
    ],
)

RUNS = Booklet(
    "runs",
    "Runs and packing",
    [
        Section(
            "The commands Load, Run and Result",
            r"nvme_entry/(specs/ProgramSlot|src/program_slot)\.|common_definitions/specs/Below",
            {
                "nvme_entry/specs/Entry.antt": "run_command_of load_of result_of",
                "nvme_entry/src/command.rt": "RunCommand LoadCommand",
            },
        ),
        Section(
            "What a program is given",
            r"program_interface/(src/(area|context|frame)|specs/(Area|Context|Frame|Registers|RunSizes))\.",
            {"program_interface/src/registers.rt": "CLEARED_REGISTERS"},
        ),
        Section(
            "What a block run touches",
            r"program_meaning/specs/Granted\.",
            {"program_meaning/specs/Laws.antt": "is_within", "program_meaning/specs/TrapFree.antt": "IsExit"},
        ),
        Section("Packing", r"emit_append/"),
        Section("What a run is about, and its block runs", r"device_meaning/specs/BlockRuns\."),
        Section("Admission", r"zone_resources/(specs/Holds|src/holds)\.|device_meaning/specs/Admission\."),
        Section("The outcome of a run", r"device_meaning/specs/Outcome\."),
        Section(
            "Runs as a device has them",
            r"device_meaning/specs/View\.",
            {
                MEANING + "Beginning.antt": "WasBegun destination_in MayGoOn",
                HAPPENINGS: "admitted_place why_not_run start_by starting added keeping place_left slots_left turn_reply turn_state"
                " take_turn turned_at turned",
            },
        ),
    ],
)

DEVICE = Booklet(
    "device",
    "Device and theorem",
    [
        Section(
            "Faults of zones",
            r"zns_commands/specs/Fault\.",
            {ZONE: "state_of_fault fault_refusal", "zone_state/src/zone.rt": "*", "zone_state/src/state.rt": "FaultState"},
        ),
        Section("The state of a device", r"device_meaning/specs/State\."),
        Section("Events and replies", r"device_events/|device_meaning/specs/EventReplies\."),
        Section("What events do", r"device_meaning/specs/Happenings\."),
        Section("Lists of events", r"device_meaning/specs/(Events|Draining)\.|common_definitions/specs/Failures"),
        Section(
            "Where a device begins",
            r"program_interface/(specs|src)/(BlockSize|block_size)\.|device_meaning/specs/(Beginning|Reached)\.|device_laws/specs/Laws\.",
            {
                ZONE: "fits_state IsZone",
                "zone_resources/specs/Admission.antt": "IsWithin",
                "image_store/specs/Geometry.antt": "Shape IsShape",
                "image_store/src/geometry.rt": "MOST_ZONES MOST_ZONE_BLOCKS MOST_BYTES",
                NAMESPACE: "IsWithinLimits namespace_with all_empty shape IsNamespace",
            },
        ),
        Section("The theorem", r"pushdown/"),
        Section("Laws beside it", r"device_meaning/specs/Laws\.", {"zns_commands/specs/Append.antt": "TakesBlocks"}),
        Section("A case of the theorem", r"device_laws/specs/Witness\."),
    ],
)

ACCEPTANCE = Booklet(
    "acceptance",
    "Acceptance",
    [
        Section(
            "How a program is spelled",
            r"instruction_set/specs/Spelling\.",
            {
                "instruction_set/src/fields.rt": "*",
                "instruction_set/specs/Program.antt": "slots_of slots_taken IsProgram",
                "program_interface/src/lib.rt": "MOST_SLOTS",
            },
        ),
        Section(
            "What a judge is, and when it is sound",
            "",
            {
                "program_meaning/specs/TrapFree.antt": "Exits NeverTraps",
                MEANING + "Judging.antt": "ProgramRefused Judge IsSoundJudge",
            },
        ),
        Section(
            "How bytes are read",
            r"ebpf_decode/",
            {"common_definitions/specs/Readings.antt": "◌>>=◌ with_front", "common_definitions/specs/FirstCheck.antt": "*"},
        ),
        Section("How a program is judged", r"word_domain/|accepted_programs/"),
        Section("Judges by facts, and the device's", r"device_meaning/specs/Judging\."),
    ],
)

QUESTIONS = Booklet(
    "questions",
    "Questions",
    [
        Section("What a question is", r"record_questions/src/question\."),
        Section("Which records match, and what the answer is", r"record_questions/specs/Question\."),
        Section("Tallies", r"record_questions/specs/Tallies\."),
        Section("Which questions can be asked", r"record_questions/specs/Asked\."),
        Section("How records are read back", r"emit_append/specs/Unpacking\.|pushdown/specs/ReadBack\."),
        Section("Programs of questions", r"question_compiler/specs/Compiled\.|question_runs/specs/Loaded\."),
        Section("Why a question has no program", r"question_compiler/", {"record_questions/specs/Code.antt": "counted"}),
        Section("The words of a result", r"question_runs/specs/Words\."),
        Section("What a device answers", r"question_runs/specs/Answered\."),
    ],
)

WORDS = Booklet(
    "words",
    "Questions in words",
    [
        Section("Where words end", r"question_words/specs/Cutting\."),
        Section(
            "Numbers, fields and operands",
            r"question_words/(specs/(Fault|Layout|Number|Field|Operand)|src/(fault|layout))\.|text_lines/",
        ),
        Section("How a condition is read", r"question_words/specs/(Condition|Within|Reading)\.|question_words/src/reading\."),
        Section("The text of a condition", r"question_words/specs/Printing\."),
        Section("Names of fields", r"question_words/specs/LayoutText\."),
        Section("What is proved of them", r"question_words/specs/Laws\."),
    ],
)

# in the order in which the pages name them
BOOKLETS = [COMMANDS, RFC_9669, RUNS, DEVICE, ACCEPTANCE, QUESTIONS, WORDS]
# where several have a file, the first of these that takes it
BY_FILES = [WORDS, QUESTIONS, RUNS, DEVICE, ACCEPTANCE, RFC_9669, COMMANDS]

# a place: the number of a booklet, and that of a section in it
At = Tuple[int, int]


def named_at(file: str, name: str) -> Optional[At]:
    """The section that has this definition of a file by its name, if one has."""
    for number, booklet in enumerate(BOOKLETS):
        for at, section in enumerate(booklet.sections):
            names = section.names.get(file, "").split()
            if name in names or names == ["*"]:
                return number, at
    return None


def place_of(file: str, name: str) -> At:
    """The booklet and the section in which a definition of a file stands."""
    found = named_at(file, name)
    for booklet in BY_FILES:
        for at, section in enumerate(booklet.sections):
            if found is None and section.files and re.match(section.files, file):
                found = BOOKLETS.index(booklet), at
    if found is None:
        raise LookupError(f"{file}: no section of tools/pages/booklets.py takes {name}")
    return found

