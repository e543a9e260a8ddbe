"""Changes to the serial line: what is held and taken, room, closing, the answers as they come, and lists of calls."""
from .change import Change

LINE, SERIAL, CUTS = "line.rs", "serial.rs", "cuts.rs"
NO_ROOM = "                break LineEnding::OutputFull;"
CLOSED = "if self.closed {\n            return CutTaken {"

OF_CUTS_TAKEN = [
    Change(LINE, "self.held.extend(rest);", "", "the bytes after the last whole record are not held"),
    Change(LINE, "self.held.extend(rest);", "self.held = rest.to_vec();", "a cut that adds to held bytes takes their place"),
    Change(LINE, "bytes_taken = cut.len();\n", "", "bytes that are held are not told as taken"),
    Change(LINE, "break LineEnding::Done;",
           "break if self.held.is_empty() { LineEnding::Done } else { LineEnding::BrokenRecord };", "3 is told on an open line"),
    Change(LINE, "self.held.extend(rest);",
           "if !rest.is_empty() && output.len() < ANSWER_BYTES { break LineEnding::OutputFull; }\n"
           "                self.held.extend(rest);", "bytes that are only held need room"),
    Change(LINE, NO_ROOM, f"                bytes_taken += 1;\n{NO_ROOM}", "a byte is told as taken though there was no room"),
    Change(LINE, NO_ROOM,
           f"                bytes_taken += RECORD_BYTES - self.held.len();\n                self.held = record.to_vec();\n{NO_ROOM}",
           "a record without room is held whole, four bytes of it"),
    Change(LINE, NO_ROOM, f"                self.held.clear();\n{NO_ROOM}", "held bytes are dropped where there is no room"),
    Change(LINE, "bytes_taken += RECORD_BYTES - self.held.len();", "bytes_taken += RECORD_BYTES;",
           "held bytes are told as taken once more"),
]

OF_CLOSING = [
    Change(LINE, "AlreadyClosed => 12", "AlreadyClosed => 10", "refusal 12 is told as 10"),
    Change(LINE, CLOSED, CLOSED.replace("closed", "closed && !cut.is_empty()"), "an empty cut after the closing is done"),
    Change(LINE, CLOSED, CLOSED.replace("closed", "closed && output.len() >= ANSWER_BYTES"), "no room is told before 12"),
    Change(LINE, "ending: LineEnding::AlreadyClosed,\n                bytes_taken: 0,",
           "ending: LineEnding::AlreadyClosed,\n                bytes_taken: cut.len(),", "a closed line takes cuts"),
    Change(LINE, CLOSED, CLOSED.replace("return", "output.fill(0);\n            return"), "a call after the closing clears its output"),
    Change(LINE, "            return LineEnding::AlreadyClosed;\n", "", "a line can be closed again"),
    Change(LINE, "        self.closed = true;\n", "", "a closed line stays open"),
    Change(LINE, "self.held.is_empty()", "self.held.len() < 2", "a line closed with one byte held is done"),
]

OF_SERIAL = [
    Change(SERIAL, "answer_piece(&mut line, piece,", "answer_piece(&mut Line::open(*line.bench()), piece,",
           "nothing is kept from one piece to the next"),
    Change(SERIAL, "match input.read(space) {",
           "let mut length = 0;\n        while let Ok(more @ 1..) = input.read(&mut space[length..]) {\n            length += more;\n"
           "        }\n        match io::Result::Ok(length) {", "records are answered once 256 bytes have come"),
    Change(SERIAL, "if taken.ending != LineEnding::OutputFull {",
           "if taken.answers_written > 0 || taken.ending != LineEnding::OutputFull {",
           "only the first record of a piece is answered"),
    Change(SERIAL, "end_line(line.close().number())", "end_line(0)", "the line ends with 0 whatever is held"),
]

OF_LISTS = [
    Change(CUTS, "input.len() > MOST_CUTS_INPUT_BYTES", "input.len() >= MOST_CUTS_INPUT_BYTES", "a list of 4,096 bytes is too long"),
    Change(CUTS, "input.len() > MOST_CUTS_INPUT_BYTES", "input.len() > MOST_CUTS_INPUT_BYTES + 1", "a list of 4,097 bytes is not too long"),
    Change("main.rs", "read(MOST_CUTS_INPUT_BYTES)", "read(MOST_CUTS_INPUT_BYTES - 1)", "a list too long is cut"),
    Change(CUTS, "let (call, later) = first_call(rest)?;", "let Some((call, later)) = first_call(rest) else { break };",
           "what follows the last whole call is left out"),
    Change(CUTS, "after_head.get(..length)?;", "&after_head[..length.min(after_head.len())];",
           "a cut that breaks off is made as far as it goes"),
    Change(CUTS, "_ => None,", "[first, ref later @ ..] if first > CLOSE => Some((Call::Close, later)),\n        _ => None,",
           "any greater byte closes the line"),
    Change(CUTS, "from_be_bytes([room_high", "from_le_bytes([room_high", "a call's room has its low byte first"),
    Change(CUTS, "untouched_output(room)", "untouched_output(room.min(8_191))", "the largest room of a call is one byte short"),
    Change(CUTS, "call_text(&mut line, call)", "call_text(&mut line.clone(), call)", "each call has a fresh line"),
]

CHANGES = OF_CUTS_TAKEN + OF_CLOSING + OF_SERIAL + OF_LISTS
