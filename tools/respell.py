#!/usr/bin/env python3
"""Turns the repository's own words to the spelling of today's Rattle: words in snake case.

usage: respell.py [FOLDER]      once, right after the kit's port.py, at the top of the repository or in FOLDER

A word that is a function of specs/ or proofs/ was in camel case, and some fields of records had a dash. Two lemmas have
the name that their word now gets, and take `_lem` behind it, as the kit's do. Functions of src/, exported names,
strings, inputs and outputs keep their names. The pages that name such words are turned too, the landing notes not: they
tell what was.
"""

import pathlib
import re
import sys

# Lemmas that stood under the name which a word gets below.
LEMMAS = {
    "row_below": "row_below_lem",
    "top_below": "top_below_lem",
}

# What the kit's script turned in .antt and .rt files, for the edits and pages that it leaves alone.
TURNED = {
    "bitsOf": "bits_of",
    "bytesOf": "bytes_of",
    "cellsOf": "cells_of",
    "fieldsOf": "fields_of",
    "firstOf": "first_of",
    "heldOf": "held_of",
    "rowOf": "row_of",
    "signOf": "sign_of",
    "signedOf": "signed_of",
    "takenOf": "taken_of",
    "totalOf": "total_of",
    "touchOf": "touch_of",
    "wordAt": "word_at",
    "wordOf": "word_of",
}

WORDS = {
    "accountTests": "account_tests",
    "accountedTold": "accounted_told",
    "agreesFrom": "agrees_from",
    "allFieldsOf": "all_fields_of",
    "anyBelow": "any_below",
    "badLevels": "bad_levels",
    "badRecord": "bad_record",
    "badRows": "bad_rows",
    "bitsTo": "bits_to",
    "bucketIn": "bucket_in",
    "bucketOf": "bucket_of",
    "bytesAfter": "bytes_after",
    "bytesVal": "bytes_val",
    "cellIn": "cell_in",
    "cellsFrom": "cells_from",
    "cellsRead": "cells_read",
    "cellsToTake": "cells_to_take",
    "checkTests": "check_tests",
    "checkedTold": "checked_told",
    "childEntry": "child_entry",
    "childrenIn": "children_in",
    "chosenIn": "chosen_in",
    "columnGrid": "column_grid",
    "columnOf": "column_of",
    "columnRun": "column_run",
    "columnTests": "column_tests",
    "columnsIn": "columns_in",
    "countIn": "count_in",
    "countTold": "count_told",
    "decBelow": "dec_below",
    "decKeyed": "dec_keyed",
    "decKeyless": "dec_keyless",
    "decKeys": "dec_keys",
    "decSound": "dec_sound",
    "decimalOf": "decimal_of",
    "destOf": "dest_of",
    "digitsOf": "digits_of",
    "earlierOf": "earlier_of",
    "endRun": "end_run",
    "endTests": "end_tests",
    "entriesIn": "entries_in",
    "entryAt": "entry_at",
    "entryIn": "entry_in",
    "farOf": "far_of",
    "fileGridTests": "file_grid_tests",
    "fileOf": "file_of",
    "filledFrom": "filled_from",
    "firstFrom": "first_from",
    "firstIn": "first_in",
    "floorAt": "floor_at",
    "floorOf": "floor_of",
    "fourAt": "four_at",
    "frontOf": "front_of",
    "gateIn": "gate_in",
    "gridTests": "grid_tests",
    "growingRun": "growing_run",
    "handedBy": "handed_by",
    "handedTold": "handed_told",
    "handedVal": "handed_val",
    "headerOf": "header_of",
    "headerTests": "header_tests",
    "heightOf": "height_of",
    "heightsFrom": "heights_from",
    "heightsIn": "heights_in",
    "heightsVal": "heights_val",
    "heightsWith": "heights_with",
    "heldIn": "held_in",
    "howMany": "how_many",
    "isAlone": "is_alone",
    "isGood": "is_good",
    "isMark": "is_mark",
    "isPass": "is_pass",
    "isPeak": "is_peak",
    "isPlace": "is_place",
    "ithOf": "ith_of",
    "keyFits": "key_fits",
    "keyFrom": "key_from",
    "keyLevel": "key_level",
    "keyOf": "key_of",
    "keyRecord": "key_record",
    "laterOf": "later_of",
    "leastAt": "least_at",
    "leastFrom": "least_from",
    "lentAfter": "lent_after",
    "lentRow": "lent_row",
    "levelAt": "level_at",
    "levelIn": "level_in",
    "levelOf": "level_of",
    "listedIn": "listed_in",
    "markIn": "mark_in",
    "markTwoIn": "mark_two_in",
    "markedNumber": "marked_number",
    "neighbourOf": "neighbour_of",
    "newestOf": "newest_of",
    "nextIn": "next_in",
    "numbersOf": "numbers_of",
    "outlineBy": "outline_by",
    "outlineTests": "outline_tests",
    "outlineText": "outline_text",
    "outlinedTold": "outlined_told",
    "passCellOf": "pass_cell_of",
    "passIn": "pass_in",
    "passLine": "pass_line",
    "passNumber": "pass_number",
    "passOf": "pass_of",
    "passPrint": "pass_print",
    "passText": "pass_text",
    "passesIn": "passes_in",
    "peakFrom": "peak_from",
    "peakIn": "peak_in",
    "peakLine": "peak_line",
    "peakPrint": "peak_print",
    "peakText": "peak_text",
    "peakVal": "peak_val",
    "peaksFrom": "peaks_from",
    "peaksIn": "peaks_in",
    "pickKey": "pick_key",
    "planeOf": "plane_of",
    "reachOf": "reach_of",
    "reachedIn": "reached_in",
    "readTests": "read_tests",
    "readTold": "read_told",
    "recordFrom": "record_from",
    "recordOf": "record_of",
    "recordsFrom": "records_from",
    "recordsIn": "records_in",
    "recordsToTake": "records_to_take",
    "recordsVal": "records_val",
    "roomAfter": "room_after",
    "roomAnswer": "room_answer",
    "roomRef": "room_ref",
    "rowAfter": "row_after",
    "rowBelow": "row_below",
    "rowsIn": "rows_in",
    "runTests": "run_tests",
    "runVal": "run_val",
    "sameKey": "same_key",
    "sameText": "same_text",
    "scannedOf": "scanned_of",
    "shoreOf": "shore_of",
    "signedBy": "signed_by",
    "signedTold": "signed_told",
    "stageIn": "stage_in",
    "stageOf": "stage_of",
    "startedRun": "started_run",
    "startedTold": "started_told",
    "stepVal": "step_val",
    "suiteTests": "suite_tests",
    "surveyBatch": "survey_batch",
    "surveyChildren": "survey_children",
    "surveyOutline": "survey_outline",
    "surveyRest": "survey_rest",
    "surveyTops": "survey_tops",
    "tableAfter": "table_after",
    "textAfter": "text_after",
    "thenTest": "then_test",
    "toldBy": "told_by",
    "toldOf": "told_of",
    "topBelow": "top_below",
    "topEntry": "top_entry",
    "topPrint": "top_print",
    "topsFrom": "tops_from",
    "topsIn": "tops_in",
    "topsPrint": "tops_print",
    "underPasses": "under_passes",
    "verdictTold": "verdict_told",
    "wantedKey": "wanted_key",
    "wantsPart": "wants_part",
    "withColumn": "with_column",
    "withEnd": "with_end",
    "withKey": "with_key",
    "withoutKey": "without_key",
    "worstOf": "worst_of",
    "writeTests": "write_tests",
    "writtenTold": "written_told",
}

# Fields of the records of specs/ in which a dash stood still; lemmas and claims keep the dash between their parts.
FIELDS = {
    "at-r": "at_r",
    "at-u": "at_u",
    "children-right": "children_right",
    "ends-after": "ends_after",
    "first-in": "first_in",
    "first-root": "first_root",
    "from-root": "from_root",
    "grid-after": "grid_after",
    "island-after": "island_after",
    "island-room": "island_room",
    "levels-in": "levels_in",
    "limit-few": "limit_few",
    "no-root": "no_root",
    "parents-left": "parents_left",
    "passes-left": "passes_left",
    "path-after": "path_after",
    "root-flat": "root_flat",
    "root-own": "root_own",
    "rows-some": "rows_some",
    "run-after": "run_after",
    "to-root": "to_root",
    "top-peak": "top_peak",
    "tops-right": "tops_right",
}

WORD = re.compile(r"(?<![\w'])[^\W\d]\w*(?![\w'])")
DASHED = re.compile(r"(?<![\w'-])[^\W\d][\w']*(?:-[\w']+)+(?![\w'-])")


def turned(text, names):
    text = DASHED.sub(lambda m: FIELDS.get(m[0], m[0]), text)
    return WORD.sub(lambda m: names.get(m[0], m[0]), text)


def main(root):
    for path in sorted(root.glob("crates/**/*")):
        if "out" in path.parts or path.suffix not in (".antt", ".rt", ".edit"):
            continue
        text = path.read_text()
        if path.suffix == ".antt":
            text = turned(text, LEMMAS)
        path.write_text(turned(text, WORDS | TURNED))
    for path in [*root.glob("*.md"), *root.glob("docs/*.md")]:
        if path.name not in ("PORT.md",):
            path.write_text(turned(path.read_text(), WORDS | TURNED))


if __name__ == "__main__":
    main(pathlib.Path(sys.argv[1] if len(sys.argv) > 1 else "."))
