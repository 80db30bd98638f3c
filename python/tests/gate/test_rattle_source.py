"""The parser of Rattle source: functions with their lines, comments, paragraphs."""
from lte_gate import copies, mutants
from lte_gate.rattle_source import comments_of, functions_of, is_of_tests, paragraphs_of, rust_file

RUST = """\
//! Root.

/// Returns `n`.
/// In one line.
pub fn first(n: u64) -> u64
    ensures { result ≡ record {
      left = n;
    } }
{
    if n == 0 { panic!("}") } // }
    n
}

pub trait Reader {
    /// A declaration.
    fn read(&self) -> u64
        ensures { result < 3 };

    fn law() {}
}

impl<T> Reader for Wide<T> {
    fn read(&self) -> u64 {
        fn inner() -> u64 {
            1
        }
        inner()
    }
}

impl ToJson for [u8] {
    const fn to_json() {}
}
"""


def test_functions_with_owners_and_lines():
    found = [(it.owner, it.name, it.first, it.last) for it in functions_of(RUST)]
    assert found == [
        ("", "first", 5, 12),
        ("Reader", "read", 16, 17),
        ("Reader", "law", 19, 19),
        ("Wide", "read", 23, 28),
        ("Wide", "inner", 24, 26),
        ("ToJson", "to_json", 32, 32),
    ]


def test_copies_take_the_outermost_functions():
    names = [(name, first, len(lines)) for name, first, lines in copies.parts_of(RUST, True)]
    assert ("read", 23, 6) in names and "inner" not in [name for name, *_ in names]


def test_comments_end_where_their_mark_does():
    found = [(it.line, it.count, it.mark, it.words) for it in comments_of(RUST)]
    assert found[:2] == [(1, 1, "//!", "Root."), (3, 2, "///", "Returns `n`. In one line.")]
    assert [it.words for it in comments_of("-- ---- a head\n-- and more\n\n--\n")] == ["a head and more", ""]


def test_paragraphs():
    text = "use Rattle.a.{b}\n\n-- why\nabbrev pub half : ℕ\nhalf = 1\n\n\nrecord IsX where\n  pub f : ℕ\n"
    assert [(name, first, len(lines)) for name, first, lines in paragraphs_of(text)] == [
        ("use", 1, 1),
        ("half", 4, 2),
        ("IsX", 8, 2),
    ]


def test_published_items():
    file = rust_file(RUST)
    assert file.items["first"] and file.items["Reader"]
    assert ("WideReader", "read") in file.methods


def test_crates_of_tests():
    assert [is_of_tests(name) for name in ("low_tests", "published_calls", "lte_top")] == [True, True, False]


def test_lines_of_a_check_belong_to_functions():
    place = mutants.Place("src/a/b.rt", "Wide", "read", 3, 8)
    assert mutants.is_own_failure("fn crate::a::b::WideReader::read: not proved", place)
    assert not mutants.is_own_failure("fn crate::a::b::WideReader::read: no proof: it calls x", place)
    assert mutants.is_at("src/a/b.rt:8:1: error", place) and not mutants.is_at("src/a/b.rt:9:1: error", place)
    free = mutants.Place("src/a/b.rt", "", "first", 1, 2)
    assert mutants.is_own_failure("fn low::a::b::first: not proved", free)
    assert not mutants.is_own_failure("fn low::a::c::first: not proved", free)
    named = mutants.Place("src/line.rt", None, "line", 1, 2)
    assert mutants.is_own_failure("fn low::line::line: not proved", named)
