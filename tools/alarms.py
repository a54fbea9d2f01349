#!/usr/bin/env python3
"""Holds the must-fail edits and their tables, crates/NAME/must-fail/GOALS.md, against each other.

    tools/alarms.py                  each edit has a line and each line an edit; a line names a function that the edit changes;
                                     where a changed function has a hand-written answer or invariant, a right twin is named;
                                     an answer that is only a tactic which a check tries itself needs none; and each edit of
                                     NEEDED, and each test of TESTED, is there
    tools/alarms.py --try NAME..     also tries the edits of these crates, with `rt must-fail`, and compares the goals

A line of a table is: edit, function, goals, right twin. The function is written with its module, as `header::Header::read`. A
goal is named as a check prints it; of several the first is the one that says what is wrong. The prover decides, in the gate,
whether an edit is refused: this script only keeps the tables true.
"""

import glob
import os
import re
import subprocess
import sys

TOP = os.path.dirname(os.path.dirname(os.path.abspath(__file__)))
FUNCTION = re.compile(r"( *)(?:pub(?:\(\w+\))? )?(?:const )?fn (\w+)")
OWN = re.compile(r"[\w+-]+ (?:g )?c = (?:search rules|grind \(arith, (?:common_steps|elements)\))")

# The edits that have to be there, since nothing else guards what they show: by what that is, the crate and its edits. They may be written
# again for another body, and then under the same name.
NEEDED = {
    "a wrong program that the promises were made against": {
        "dbbytes": "name_cut_misread ninth_byte_seven_bits split_length_unchecked",
        "dbcli": "status_always_zero",
        "dbmarks": "range_check_only",
        "dbpage": "lanes_drop_tail sizes_summed",
        "dbreport": "failed_line_skipped ok_before_map refusal_as_verdict stops_counting_at_limit",
        "dbscan": "freelist_count_from_header map_page_reread map_type_only",
        "dbsource": "always_read_failed always_short failed_chain_read_as_zeros failed_read_as_zeros",
        "dbwalk": "buffer_per_child chain_ignores_length children_before_chains late_mark late_mark_of_a_child local_bytes_only "
        "neighbour_keys_only reload_per_cell reload_per_child",
    },
    "what is written is the report of the file (run, explain, map: read)": {
        "dbinjuries": "fault_past_the_limit_not_counted last_injury_not_listed lost_page_listed_as_it_is_heard",
        "dbexplain": "explained_100_at_most line_after_the_injuries_of_a_failed_read",
        "dbpicture": "fault_not_counted picture_of_another_name square_left_out",
        "dbreport": "forms_swapped outs_swapped",
        "dbscan": "end_told_as_without_rows old_marks_kept row_never_taken",
        "dbsource": "header_put_at_byte_1",
    },
    "the verdict is that of the faults (run: sound, ok)": {"dbformat": "verdict_of_one_fault"},
    "a failure is answered exactly where one was, and memory is out where it was refused (failed, run_on: desk)": {
        "dbreport": "run_hidden_by_out_of_memory",
        "dbsource": "file_failure_uncounted stream_failure_as_success",
        "dbwalk": "buffer_per_trunk",
    },
    "page 1 is read twice at most, and no other page more than once": {
        "dbcli": "file_run_twice read_after_the_run",
        "dbreport": "header_read_twice",
        "dbscan": "visited_page_looked_at",
        "dbsource": "failed_range_not_kept",
        "dbwalk": "page_left_unmarked",
    },
    "rows count each page, and a summary each fault (CountsPages, summary_counts_all_faults)": {
        "dbexplain": "code_left_out_of_the_summary pages_counted_twice",
        "dbformat": "code_left_out_of_the_list",
        "dbreport": "unowned_pages_left_out",
    },
    "the words are taken as they are, and refused before anything is put (answer_words)": {
        "dbcli": "help_as_mistake limit_at_most_100 refused_line_puts",
    },
    "the file that the words name is opened, and no other, once (answer_words)": {"dbcli": "another_file_opened second_file_opened"},
    "what mend writes was tried, and its last line is ok only of a sound file (mend: mended, ok)": {
        "dbmend": "count_of_no_run ok_where_faults_are_left other_bytes_than_tried run_without_its_changes",
    },
    "each output gets its part, whole, and the line of the error (finish)": {
        "dbcli": "error_line_missing line_after_what_explain_found streams_exchanged",
        "dbsource": "buffered_line_torn half_of_the_buffer_flushed memory_put_dropped",
    },
}

# Wrong programs that prove, since no clause can refuse them, and the test that does: its file, and what of it has to be there.
TESTED = {
    "always_out_of_memory": ("crates/dbck_tests/src/refusals/growths.rt", "fn takes_23_growths_and_no_more("),
    "always_usage": ("tests/program/statuses.bats", "expect 0 $'ok\\n' '' check \"$data/whole.db\""),
    "buffers_beside_desk": ("crates/dbck_tests/src/refusals/growths.rt", "fn takes_23_growths_and_no_more("),
}


def text_of(path):
    with open(path, encoding="utf-8") as it:
        return it.read()


def owner_of(line):
    """The type of an `impl` line, and the type joined with the trait, as the folder of a proof has it."""
    head = re.sub(r"^impl\b\s*", "", line).rstrip(" {")
    while re.search(r"<[^<>]*>", head):
        head = re.sub(r"<[^<>]*>", "", head)
    trait, _, named = head.rpartition(" for ")
    own = re.findall(r"\w+", named)[0]
    return own, own + "".join(re.findall(r"\w+", trait))


def functions(text):
    """The functions of a source: name, type or '', type with trait, first and last line."""
    lines, found, owner = text.split("\n"), [], ("", "")
    for number, line in enumerate(lines):
        if line.startswith("impl"):
            owner = owner_of(line)
        elif line.startswith("}"):
            owner = ("", "")
        start = FUNCTION.match(line)
        if start:
            ends = (at for at in range(number, len(lines)) if lines[at].startswith(start[1] + "}") or lines[at] == start[1] + "{}")
            found.append((start[2], owner[0], owner[1], number, next(ends, number)))
    return found


def edited(crate, edit):
    """The functions that an edit changes: name with its module, and the folders that its answers may have."""
    file, changed = "", []
    for line in text_of(edit).split("\n"):
        if line.startswith("file: "):
            file = line[len("file: ") :].strip()
        elif line.startswith("old: "):
            text = text_of(f"{crate}/{file}")
            at = text[: text.find(line[len("old: ") :])].count("\n")
            module = re.sub(r"^src/|\.rt$", "", file)
            module = "" if module in ("lib", "main") else module
            for name, own, joined, first, last in functions(text):
                if first <= at <= last and not any(first < it[3] <= at <= it[4] for it in functions(text)):
                    whole = "::".join(it for it in (module.replace("/", "::"), own, name) if it)
                    of_type = glob.glob(f"{crate}/proofs/**/{own}/{name}", recursive=True) if own else []
                    of_trait = glob.glob(f"{crate}/proofs/**/{joined}*/{name}", recursive=True) if joined != own else []
                    changed.append((whole, (of_trait if joined != own else of_type) if own else [f"{crate}/proofs/{module}/{name}"]))
    return changed


def is_own(path):
    """Whether each answer of a file is only a tactic that a check tries itself."""
    lines = [it for it in text_of(path).split("\n") if it and not it.startswith(("use ", "pub ", "unfolding "))]
    return path.endswith("/Answers.antt") and all(OWN.fullmatch(it) for it in lines)


def has_answer(folders):
    files = [f"{folder}/{file}.antt" for folder in folders for file in ("Answers", "Invariants", "Proof")]
    return any(os.path.isfile(it) and not is_own(it) for it in files)


def table_of(crate):
    """The lines of a crate's table."""
    path, lines = f"{crate}/must-fail/GOALS.md", []
    for line in text_of(path).split("\n") if os.path.isfile(path) else []:
        cells = [it.strip() for it in line.strip().strip("|").split("|")] if line.startswith("|") else []
        if cells and cells[0] != "Edit" and not set(cells[0]) <= set("-: "):
            lines.append(cells)
    return lines


def plain(cell):
    return cell.replace("`", "").strip()


def complaints(crate):
    """What is wrong with the table of a crate."""
    edits = sorted(os.path.basename(it)[: -len(".edit")] for it in glob.glob(f"{crate}/must-fail/*.edit"))
    lines, said = table_of(crate), []
    named = [plain(cells[0]) for cells in lines]
    said += [f"{it}.edit has no line" for it in edits if it not in named]
    said += [f"{it}: the line has no edit" for it in named if it not in edits]
    said += [f"{it}: more than one line" for it in sorted({it for it in named if named.count(it) > 1})]
    for cells in lines:
        if len(cells) != 4:
            said.append(f"{plain(cells[0])}: the line has {len(cells)} cells, and not four")
            continue
        edit, function, goals, twin = plain(cells[0]), plain(cells[1]), plain(cells[2]), cells[3].strip()
        if edit not in edits:
            continue
        changed = edited(crate, f"{crate}/must-fail/{edit}.edit")
        if function not in [it for it, _ in changed]:
            said.append(f"{edit}: {function} is no function that the edit changes ({', '.join(it for it, _ in changed) or 'none'})")
        if not all(re.fullmatch(r"[A-Za-z][\w+.-]*", it.strip()) for it in goals.split(",")):
            said.append(f"{edit}: no goal is named")
        if any(has_answer(folders) for _, folders in changed) and not re.search(r"\w", twin):
            said.append(f"{edit}: the function has a hand-written answer or invariant, and no right twin is named")
    return [f"{os.path.basename(crate)}: {it}" for it in said]


def missing():
    """The edits and tests that have to be there and are not."""
    said = []
    for shown, by_crate in NEEDED.items():
        for crate, edits in by_crate.items():
            gone = [it for it in edits.split() if not os.path.isfile(f"{TOP}/crates/{crate}/must-fail/{it}.edit")]
            said += [f"{crate}: {it}.edit has to be there: {shown}" for it in gone]
    for edit, (file, wanted) in TESTED.items():
        if not os.path.isfile(f"{TOP}/{file}") or wanted not in text_of(f"{TOP}/{file}"):
            said.append(f"{file}: the test that refuses {edit} has to be there: {wanted}")
    return said


def tried(name):
    """Tries the edits of a crate, and says where the goal that is refused is none of its line."""
    ran = subprocess.run(["rt", "must-fail", name], cwd=TOP, stdout=subprocess.PIPE, stderr=subprocess.STDOUT, text=True)
    goals = {plain(cells[0]): [it.strip() for it in plain(cells[2]).split(",")] for cells in table_of(f"{TOP}/crates/{name}")}
    said = []
    for line in ran.stdout.split("\n"):
        told = re.search(rf"must-fail {name}/(\w+)\.edit: (.*)", line)
        if not told:
            continue
        # (a line is cut at some length, and then its goal may be too)
        whole, cut = re.findall(r"`([\w+.-]+)`", told[2]), re.findall(r"`([\w+.-]+)$", told[2])
        if not told[2].startswith("refused"):
            said.append(f"{name}: {told[1]}: {told[2]}")
        elif not any(it in whole or any(it.startswith(part) for part in cut) for it in goals.get(told[1], [])):
            said.append(f"{name}: {told[1]}: refused by another goal: {told[2]}")
    return said + ([f"{name}: rt must-fail ended with {ran.returncode}"] if ran.returncode and not said else [])


def main(words):
    crates = sorted(glob.glob(f"{TOP}/crates/*/must-fail"))
    said = missing() + [it for folder in crates for it in complaints(os.path.dirname(folder))]
    if words[:1] == ["--try"]:
        said += [it for name in words[1:] for it in tried(name)]
    elif words:
        sys.exit(__doc__)
    for it in said:
        print(f"alarms: {it}")
    count = sum(len(glob.glob(f"{folder}/*.edit")) for folder in crates)
    print(f"alarms: {count} edits, {len(said)} complaints")
    return 1 if said else 0


if __name__ == "__main__":
    sys.exit(main(sys.argv[1:]))
