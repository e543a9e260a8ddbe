"""What tools/check-contracts refuses of the list of crates and of the programs, on a small repository."""
from checks import crates, fixed
from tests.contracts_tree import ContractsTest


class Crates(ContractsTest):
    """Listed crates have a folder, and folders are listed."""

    def test_a_folder_that_is_not_listed(self):
        self.files["crates/beta/src/lib.rt"] = "pub fn f() -> u8 {\n    1\n}\n"
        self.assertWrong("crates/beta: crates.txt does not list this crate")

    def test_a_crate_without_a_folder(self):
        self.files["crates.txt"] += "beta: alpha\n"
        self.assertWrong("there is no crates/beta")

    def test_a_static_library(self):
        self.files["crates.txt"] += "alpha_c staticlib: alpha\n"
        self.files["crates/alpha_c/src/lib.rt"] = "// No code.\n"
        self.assertRight()
        self.assertEqual((crates.libraries(self.top), crates.static_libraries(self.top)), (["alpha", "one_answer"], ["alpha_c"]))
        self.assertEqual(crates.needed(self.top, ["alpha_c"]), ["alpha", "alpha_c"])

    def test_a_crate_listed_twice(self):
        self.files["crates.txt"] += "alpha:\n"
        self.assertWrong("alpha is listed twice")


class Streams(ContractsTest):
    """The library by which the programs read and write has no laws, and is held to its words."""

    LIB = "crates/streams/src/lib.rt"

    def setUp(self):
        super().setUp()
        self.files["crates.txt"] += "streams:\n"
        self.files[self.LIB] = "// What comes and goes.\n" + fixed.STREAMS

    def test_its_words(self):
        self.assertRight()

    def test_other_words(self):
        for old, new in (("Err(_) => return n", "Err(_) => return 0"), ("buf[n..]", "buf[..]"), ("from.read(&mut [])?;", "from.read(&mut [])?; return Ok(0);"),
                         ("said(readable, text.as_slice())", "said(readable & (came.is_ok()), text.as_slice())"), ("said(!written, unwritten)", "said(written, unwritten)"),
                         ("use std::io::{Read, Write};", "use alpha::{Read, Write};"), ("IfOk result (λ n. n ≤ length buf.new)", "0 ≡ 0"),
                         ("ensures { result ≤ length buf.new }", "ensures { 0 ≡ 0 }"), ("Ok(read_full(from, buf))", "Ok(0)"),
                         ("Write::write_all(&mut rt.stdout(), said", "rt.stdout().write_all(said")):
            with self.subTest(new):
                self.files[self.LIB] = fixed.STREAMS
                self.edit(self.LIB, old, new)
                self.assertWrong("streams decides nothing, so it is held to its words: line ")

    def test_a_function_besides(self):
        self.files[self.LIB] += "pub fn more() -> u8 {\n    1\n}\n"
        self.assertWrong("streams decides nothing, so it is held to its words")

    def test_a_file_besides(self):
        self.files["crates/streams/src/more.rt"] = "// No code.\n"
        self.assertWrong("crates/streams/src/more.rt: streams decides nothing, so it is held to its words: a file besides lib.rt")


class Programs(ContractsTest):
    """A program offers nothing, and decides nothing where it is told not to."""

    MAIN = "crates/listing/src/main.rt"

    def assertMain(self, old, new):
        """The program with one change is refused."""
        self.files[self.MAIN] = fixed.LISTING
        self.edit(self.MAIN, old, new)
        self.assertWrong("listing decides nothing, so it is held to its words: line ")

    def test_a_choice_in_main(self):
        for choice in ("if k < 1 { return; }", "match k { _ => {} }", "while true { }", "for i in 0..3 { }", "loop { }", "return;"):
            with self.subTest(choice):
                self.assertMain("    answer(", f"    {choice}\n    answer(")

    def test_a_choice_by_a_sum(self):
        self.assertMain("list(input)", "list(&input[..input.len() - (input.len() == 2000) as usize])")
        self.assertMain("INPUT + 1", "INPUT % 2000")
        self.assertMain("&mut room", "&mut room[..2000]")

    def test_a_function_from_elsewhere(self):
        self.assertMain("use streams::answer;", "use alpha::answer;")

    def test_a_helper_whose_contract_says_nothing(self):
        self.assertMain("fn main(", "fn cut(n: usize) -> usize\n    ensures { 0 ≡ 0 }\n{\n    if n == 2000 { 0 } else { n }\n}\n\nfn main(")

    def test_a_main_whose_contract_says_nothing(self):
        self.assertMain("fn main(rt: HostRuntime) {", "fn main(rt: HostRuntime)\n    ensures { 0 ≡ 0 }\n{")

    def test_a_file_besides(self):
        self.files["crates/listing/src/more.rt"] = "// No code.\n"
        self.assertWrong("crates/listing/src/more.rt: listing decides nothing, so it is held to its words: a file besides main.rt")

    def test_rooms(self):
        self.files["crates.txt"] += "rooms: alpha\n"
        self.files["crates/rooms/src/main.rt"] = fixed.PROGRAMS["rooms"]
        self.assertRight()
        self.files["crates/rooms/src/main.rt"] = fixed.LISTING
        self.assertWrong("rooms decides nothing, so it is held to its words: line 6: `lister :: INPUT")

    def test_a_public_function(self):
        self.files[self.MAIN] += "pub fn offered() -> u8 {\n    1\n}\n"
        self.assertWrong("offered is public, in a program")

    def test_a_program_that_may_decide(self):
        self.files["crates.txt"] += "cases: alpha\n"
        self.files["crates/cases/src/main.rt"] = "fn main() {\n    for i in 0..3 {\n    }\n}\n"
        self.assertRight()
