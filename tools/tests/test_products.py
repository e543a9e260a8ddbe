"""What tools/check-contracts refuses of products on the way from the locator's `locate` down, on a small repository, and how far it goes here."""
import unittest

from checks import products
from commands import TOP
from tests.contracts_tree import ContractsTest
from tests.trees import TreeTest

LOCATOR, BELOW = "crates/locator/src/lib.rt", "crates/below/src/lib.rt"


class Products(TreeTest):
    """A locator over one crate: `locate` calls `fit`, and that a method of the crate below."""

    FILES = {
        "crates.txt": "below:\nlocator: below\nbeside:\n",
        LOCATOR: """use below::Row;

pub fn locate(r: Row) -> u16 {
    fit(r, 1)
}

fn fit(r: Row, k: u16) -> u16 {
    r.base(k)
}

fn unused(a: u16, b: u16) -> u16 {
    a * b
}
""",
        BELOW: """impl Row {
    pub fn base(self, k: u16) -> u16 {
        let x = 0;
        k
    }
}
""",
        "crates/beside/src/lib.rt": "pub fn base(a: u16, b: u16) -> u16 {\n    a * b\n}\n",
    }

    def wrong(self):
        return list(products.check(self.top))

    def assertBody(self, line, wrong):
        """A line of the method two calls below is refused, or is not."""
        self.files = dict(self.FILES)
        self.edit(BELOW, "        let x = 0;\n", f"        {line}\n")
        said = (f"{BELOW}:3: base multiplies or divides by what is no power of two written as a number, "
                "and locate reaches a function of that name")
        self.write()
        self.assertEqual(self.wrong(), [said] if wrong else [], line)

    def test_what_is_not_reached_may_multiply(self):
        self.assertRight()

    def test_products(self):
        for line in ("let x = k * k;", "let x = (k + 1) * (k);", "let x = r.held[1] * k;", "let x = 3 * k;", "let x = k * 24;", "let x = k * 0;",
                     "k *= k;", "k *= 2 + k;", "let x = if a { 1 } else { 2 } * k;", "let x = k * 2.max(k);", "let x = b' ' * k;",
                     "let x = !4 * k;"):
            with self.subTest(line):
                self.assertBody(line, True)

    def test_a_power_of_two_that_is_no_operand(self):
        for line in ("let x = 4 * k * k;", "let x = k / 2 * k;", "let x = k % 8 * k;", "let x = k.1 * k;"):
            with self.subTest(line):
                self.assertBody(line, True)

    def test_quotients(self):
        for line in ("let x = k / k;", "let x = k % (k);", "let x = 16 / k;", "let x = k % 24;", "k /= 3;", "k %= 16 + k;"):
            with self.subTest(line):
                self.assertBody(line, True)
        for line in ("let x = k / 4 % 2;", "let x = (k + k) % 16384;", "k /= 2;", "k %= 0x4000;"):
            with self.subTest(line):
                self.assertBody(line, False)

    def test_the_counters_helper_takes_a_remainder_and_no_more(self):
        self.edit(BELOW, "        let x = 0;\n", "        let x = counted(k, k);\n")
        self.files[BELOW] += "\nfn counted(a: u16, b: u16) -> u16 {\n    a % b\n}\n"
        self.assertRight()
        for body in ("a * b", "a / b", "wrapping_mul_u16(a, b) % b"):
            with self.subTest(body):
                self.files[BELOW] = self.there[BELOW].replace("    a % b\n", f"    {body}\n")
                self.assertWrong(f"{BELOW}:9: counted multiplies or divides")
                self.files[BELOW] = self.files[BELOW].replace(f"    {body}\n", "    a % b\n")
                self.assertRight()

    def test_powers_of_two(self):
        for line in ("let x = 256 * k;", "let x = k * 16;", "let x = 0x100u16 * (k);", "let x = k * 1_024;", "let x = 1 + 4 * k;", "k *= 2;",
                     "let x = 16 as u32 + k;"):
            with self.subTest(line):
                self.assertBody(line, False)

    def test_calls_that_multiply(self):
        for name in ("wrapping_mul_u16", "mul", "pow_u32", "saturating_mul", "checked_rem", "div_u8"):
            with self.subTest(name):
                self.assertBody(f"let x = {name}(k, k);", True)
        self.assertBody("let x = multitude(k) + powder(k) + divided(k);", False)

    def test_what_is_lent_is_not_multiplied(self):
        for line in ("*k = 1;", "return *k;", "break *k;", "let x = *k + *k;", "f(*k, *k);"):
            with self.subTest(line):
                self.assertBody(line, False)

    def test_in_the_first_function(self):
        self.edit(LOCATOR, "    fit(r, 1)", "    fit(r, 3 * 5)")
        self.assertWrong(f"{LOCATOR}:4: locate multiplies or divides")

    def test_every_function_of_a_name_counts_as_called(self):
        self.files[BELOW] += "\nfn base(a: u16, b: u16) -> u16 {\n    a * b\n}\n"
        self.assertWrong(f"{BELOW}:9: base multiplies")

    def test_a_function_under_another_name(self):
        self.edit(LOCATOR, "use below::Row;", "use below::Row;\nuse below::product as base;")
        self.assertWrong(f"{LOCATOR}:2: brought in under another name, so that it cannot be told what locate calls")

    def test_no_locator_to_begin_with(self):
        self.edit(LOCATOR, "fn locate(", "fn located(")
        self.assertWrong("crates/locator: there is no locate, from which nothing may multiply")
        self.files = {"crates.txt": "beside:\n", "crates/beside/src/lib.rt": self.FILES["crates/beside/src/lib.rt"]}
        self.assertRight()


class Checked(ContractsTest):
    """It is a part of tools/check-contracts."""

    def test_a_product(self):
        self.files["crates.txt"] += "locator: alpha\n"
        self.files[LOCATOR] = "fn locate(a: u8, b: u8) -> u8 {\n    a * b\n}\n"
        self.assertWrong(f"{LOCATOR}:2: locate multiplies")
        self.edit(LOCATOR, "a * b", "a + b")
        self.assertRight()


class Here(unittest.TestCase):
    """The repository itself, which tools/check-contracts finds right; a locator under another name would be noticed here."""

    def test_the_way_goes_down_to_the_counter(self):
        self.assertLess({"locate", "picture_fit", "next_base", "newest", "latch", "address", "word", "counted"}, set(products.way_down(TOP)))
