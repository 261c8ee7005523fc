"""The small crate on which `mutants.py` tests itself, and edits of it with what must come of each."""

SOURCE = """#![tactic(auto)]
ghost use Rattle.std.specs.Prelude.{◌≡◌, ◌≤◌, ◌*◌};

pub const WHEELS: u32 = 4;

pub struct Rope {
    length: u32,
}

impl From<u32> for Rope {
    fn from(length: u32) -> Rope
        ensures { result.length ≡ length }
    {
        Rope { length }
    }
}

impl Rope {
    pub fn cut(&mut self, length: u32)
        ensures { self.new.length ≡ length }
    {
        self.length = length;
    }
}

pub fn wheels() -> u32
    ensures { result ≡ 8 }
{
    2 * WHEELS
}

pub fn cut_twice(rope: &mut Rope)
    ensures { rope.new.length ≡ 1 }
{
    rope.cut(2);
    rope.cut(1);
}

pub fn shorter(first: u32, second: u32) -> u32
    ensures { result ≤ second }
{
    if first < second { first } else { second }
}
"""
ANSWERS = """use Rattle.std.proofs.Common.{rules}
use Rattle.ropes.proofs.shorter.Goals as goal

pub returns-then-first-second : goal.returns-then-first-second
returns-then-first-second g = search rules
"""
# Old and new text, and the verdict, which is refused, or failed with these words.
EDITS = {
    "a_method": ("self.length = length;", "self.length = length / 2;", "refused"),
    "another_body_of_it": ("self.length = length;", "self.length = 1;", "refused"),
    "a_method_of_a_trait": ("        Rope { length }", "        Rope { length: length / 2 }", "refused"),
    "a_constant": ("WHEELS: u32 = 4;", "WHEELS: u32 = 5;", "refused"),
    "a_right_body_over_a_wrong_one": ("rope.cut(2);", "rope.cut(3);", "not refused"),
    "a_right_body_without_the_goal_of_an_answer": ("if first < second {", "if second > first {", "not refused"),
    "a_body_that_an_answer_alone_refuses": ("if first < second { first }", "if first < second { u32::MAX }", "refused by its old proof"),
    "a_text_that_is_gone": ("rope.cut(5);", "rope.cut(6);", "0 times"),
    "a_text_that_stands_twice": ("rope.cut(", "rope.from(", "2 times"),
    "a_contract": ("{ result ≡ 8 }", "{ result ≡ 9 }", "it changes the contract"),
    "another_type": ("    2 * WHEELS", "    true", "src/lib.rt:.*error"),
    "a_loan_that_moves": ("    rope.cut(1);", "    let _ = (rope, 1);", "the borrow checker does not cover"),
    "no_change": ("2 * WHEELS", "2 * WHEELS", "it changes nothing"),
}
