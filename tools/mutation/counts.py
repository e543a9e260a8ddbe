"""Changes to settings and to the counting of their frames: the cut, the frame, the numbers, the totals, the refusals, the text."""
from .change import Change

SETTING, FRAME, ROW = "setting.rs", "counts/frame.rs", "counts/row.rs"
REPORT, TEXT, PLACES = "counts/report.rs", "counts/listing.rs", "counts/places.rs"
FIRST_FIELD = "let field = controller.scan().field;"
BOTH_ENDS = ".skip(1)\n        .chain(iter::once(&frame.next_first));"
LINES_CHANGED = "u64::from(differing.count_ones())"
SETTINGS = "let settings = whole_settings(bytes).ok_or(CountRefusal::NotWholeSettings)?;"
ROOM = "let room = places.get_mut(..needed).ok_or(CountRefusal::TooFewPlaces)?;"

OF_SETTINGS = [
    Change(SETTING, "held: registers.all_held(),", "held: bytes,", "a setting's bytes are not cut",
           tests_only="the controller that a setting starts has them written once more, and a write cuts them"),
    Change(SETTING, "Some(whole.map(|bytes| Setting::of(*bytes)).collect())",
           "let all: Vec<Setting> = whole.clone().map(|bytes| Setting::of(*bytes)).collect();\n"
           "    all.iter().zip(whole).all(|(one, bytes)| one.held() == *bytes).then_some(all)",
           "bytes wider than their registers are refused"),
    Change(SETTING, "        controller.reset();", "", "a setting is not reset"),
    Change(SETTING, "for (number, byte) in (0..).zip(self.held) {", "for (number, byte) in (0..15).zip(self.held) {",
           "R15 is not written"),
    Change(SETTING, "MOST_SETTINGS: usize = 64", "MOST_SETTINGS: usize = 65", "65 settings are taken"),
    Change(SETTING, "MOST_SETTINGS: usize = 64", "MOST_SETTINGS: usize = 63", "64 settings are refused"),
    Change(SETTING, "!parts.remainder().is_empty() || ", "", "a cut setting is left out"),
    Change(SETTING, "(1..=MOST_SETTINGS)", "(0..=MOST_SETTINGS)", "no setting has a report of its totals"),
    Change("main.rs", "read(MOST_COUNTS_INPUT_BYTES)", "read(MOST_COUNTS_INPUT_BYTES - 1)",
           "a byte more than 64 settings is not read"),
]

OF_FRAMES = [
    Change(FRAME, "picture: controller.facts().picture,", "picture: controller.pins().display_enable,",
           "display enable is counted for the picture"),
    Change(FRAME, "pins: controller.pins(),",
           "pins: Pins { display_enable: controller.facts().picture, ..controller.pins() },",
           "display enable's delay is not counted"),
    Change(FRAME, "pins: controller.pins(),", "pins: Pins { cursor: controller.facts().cursor, ..controller.pins() },",
           "the cursor's delay is not counted"),
    Change(FRAME, "        Frame {\n            times,", "        times.pop();\n        Frame {\n            times,",
           "a frame is one character time short"),
    Change(FRAME, "        Frame {\n            times,",
           "        times.push(CharacterTime::shown_by(&controller));\n        Frame {\n            times,",
           "a frame is one character time long"),
    Change(FRAME, FIRST_FIELD, f"controller.clock();\n        {FIRST_FIELD}", "a frame begins at its second character"),
    Change(FRAME, FIRST_FIELD, f"while controller.scan().field.value() < 1 {{ controller.clock(); }}\n        {FIRST_FIELD}",
           "the second frame is counted"),
    Change(FRAME, FIRST_FIELD, f"while controller.scan().field.value() < 8 {{ controller.clock(); }}\n        {FIRST_FIELD}",
           "the ninth frame is counted"),
    Change("controller/scan.rs", "field: Counter::ZERO,", "field: Counter::holding(8),",
           "a reset leaves field 8, in which the quick blink hides the cursor"),
    Change(FRAME, "while controller.scan().field == field {",
           "while controller.scan().field == field && !controller.scan().adjusting {", "the adjust lines are not counted"),
]

OF_ROWS = [
    Change(ROW, BOTH_ENDS, ".skip(1);", "the change to the next frame is forgotten"),
    Change(ROW, LINES_CHANGED, "u64::from((differing & 0xFF).count_ones())", "only the low eight address lines are counted"),
    Change(ROW, LINES_CHANGED, "u64::from((differing & 0x1FFF).count_ones())", "the highest address line is not counted"),
    Change(ROW, LINES_CHANGED, "u64::from(differing != 0)", "a change of several lines is counted as one"),
    Change(ROW, "time.memory_address ^ next.memory_address", "time.memory_address.abs_diff(next.memory_address)",
           "the lines of the difference are counted"),
    Change(ROW, "lines_changed(frame).max()", "lines_changed(frame).min()", "the smallest change is told for the largest"),
    Change(ROW, "|time| time.pins.hsync", "|time| time.pins.vsync", "VSYNC is counted for HSYNC"),
    Change(ROW, "|time| time.pins.vsync", "|time| time.pins.hsync && time.pins.vsync", "VSYNC is counted with HSYNC alone"),
    Change(ROW, "|time| time.pins.cursor", "|time| time.pins.cursor && time.pins.display_enable",
           "the cursor is counted with display enable alone"),
    Change(ROW, "LARGEST_CHANGE: usize = 6", "LARGEST_CHANGE: usize = 7", "the totals sum the largest changes"),
    Change(ROW, "LARGEST_CHANGE: usize = 6", "LARGEST_CHANGE: usize = 5", "the totals have the greatest sum of changes"),
    Change(ROW, "let numbers = rows.iter().map(|row| row[place]);", "let numbers = rows.iter().take(63).map(|row| row[place]);",
           "the totals leave the last of 64 settings out"),
]

OF_REPORTS = [
    Change(REPORT, "NotWholeSettings => 10", "NotWholeSettings => 11", "refusal 10 is told as 11"),
    Change(REPORT, "TooFewPlaces => 11", "TooFewPlaces => 10", "refusal 11 is told as 10"),
    Change(REPORT, SETTINGS,
           f"if places.len() < places_needed(bytes.len() / 16) {{ return Err(CountRefusal::TooFewPlaces); }}\n    {SETTINGS}",
           "too few places are told before bytes that are no settings"),
    Change(REPORT, ROOM,
           f"if let Some(first) = places.get_mut(..7) {{ first.copy_from_slice(&setting_row(&settings[0])); }}\n    {ROOM}",
           "a row is written before too few places are told"),
    Change(REPORT, ROOM, f"if places.len() == needed {{ return Err(CountRefusal::TooFewPlaces); }}\n    {ROOM}",
           "places that are just enough are refused"),
    Change(REPORT, ROOM,
           "let shown = needed - ROW_PLACES;\n    if (shown..needed).contains(&places.len()) {\n"
           "        let rows: Vec<Row> = settings.iter().map(setting_row).collect();\n"
           f"        places[..shown].copy_from_slice(&rows.concat());\n        return Ok(shown);\n    }}\n    {ROOM}",
           "places for all but the totals are enough"),
    Change(REPORT, "room.copy_from_slice(&rows.concat());", "room.copy_from_slice(&rows.concat());\n    places[needed..].fill(0);",
           "the places past a report are cleared"),
    Change(REPORT, SETTINGS, f"if whole_settings(bytes).is_none() {{ places.fill(0); }}\n    {SETTINGS}",
           "a refused report clears the places"),
    Change(REPORT, "settings.iter().map(setting_row)", "settings.iter().rev().map(setting_row)",
           "the rows stand in the other order"),
    Change(PLACES, "MOST_PLACES: usize = 1_024", "MOST_PLACES: usize = 1_023", "the most places are one fewer"),
    Change(PLACES, "from_be_bytes(*field)", "from_le_bytes(*field)", "the number of places has its low byte first"),
    Change("main.rs", "read(MOST_PLACES_INPUT_BYTES)", "read(MOST_PLACES_INPUT_BYTES - 1)",
           "a byte more than 64 settings for places is not read"),
    Change(TEXT, 'text.push_str("total ");', "", "the totals have no word before them"),
    Change(TEXT, 'numbers.join(" ")', 'numbers.join("  ")', "two spaces stand between numbers"),
    Change(TEXT, "u64::to_string", "|number| (*number as u16).to_string()", "numbers of more than 16 bits are cut"),
]

CHANGES = OF_SETTINGS + OF_FRAMES + OF_ROWS + OF_REPORTS
