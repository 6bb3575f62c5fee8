"""surface.txt is as surface.py writes it from the crates, and each public call has a clause."""

from common import TOP, InFolder, read
from surface import HEAD, LIST, calls_of, listed, untold


def test_the_list_is_as_it_is_written():
    found = calls_of(TOP)
    assert listed(TOP, found) == read(LIST)
    assert untold(found) == []
    assert sum(map(len, found.values())) >= 250


class TestSample(InFolder):
    """The list of a crate."""

    TEXTS = {
        "crates.txt": "one:\n",
        "crates/one/src/lib.rt": """
mod shelf;
pub use shelf::{Gone, Lends, Shelf};
pub use shelf::count;
""",
        "crates/one/src/shelf.rt": """
impl<A: Copy> Shelf<A> {
    pub fn put(&mut self)
        ensures { self.new ≡ self.old }
    {
    }

    pub fn turn(&mut self)
        ensures { self.new ≡ self.old }
    {
    }

    /// Takes a book out.
    pub fn take(&mut self, number: u32) -> Result<A, Gone>
        requires room { number < 9 }
        ensures gone { IsErr result }

        ensures { result ≡ result }
    {
        self.inner()
    }

    pub(crate) fn inner(&self) {}
}

impl fmt::Display for Shelf<u32> {
    fn fmt(&self) {}
}

pub trait Lends {
    ghost fair: { yes };

    fn lend(&self) -> u32
        ensures { result ≡ 0 };
}

pub fn count() -> u32
    ensures { result ≡ 0 }
{
    0
}

pub fn hidden() -> u32 {
    0
}
""",
        "crates/one/must-fail/take_gives_none.edit": "file: src/shelf.rt\nold:         self.inner()\nnew:         none\n",
        "edits/one/count_is_one.edit": "file: src/shelf.rt\nold: pub fn count() -> u32\nnew: pub fn count() -> u64\n",
        "edits/one/a_shelf_shows_nothing.edit": "file: src/shelf.rt\nold:     fn fmt(&self) {}\nnew:     fn fmt() {}\n",
    }

    SECTION = """
## `one`

- `count` *not* count_is_one.
- **`Lends`**: *ghost* fair; `lend`.
- **`Shelf`**: `put`, `turn`; `take`(room) gone, _, *not* take_gives_none.
"""

    def listed(self, file="crates.txt", old="one:", new="one:"):
        """The list of the sources, in one of which a text was put in the place of another, and the calls that are untold."""
        for name, text in self.TEXTS.items():
            if name == file:
                assert text.count(old) == 1
                text = text.replace(old, new)
            self.write(name, text)
        found = calls_of(self.folder)
        return listed(self.folder, found), untold(found)

    def test_list_that_is_written(self):
        assert self.listed() == (HEAD + self.SECTION, [])

    def test_change_of_the_sources(self):
        shelf = "crates/one/src/shelf.rt"
        for old, new in ("requires room", "requires"), ("pub fn count", "fn count"), ("ghost fair", "ghost even"):
            assert self.listed(shelf, old, new)[0] != HEAD + self.SECTION

    def test_call_without_a_clause(self):
        text, untold = self.listed("crates/one/src/lib.rt", "pub use shelf::count;", "pub use shelf::{count, hidden};")
        assert "; `hidden` *untold*.\n" in text
        assert untold == ["hidden"]
