"""A further field or required method, as published.py adds it."""
from lte_gate.published import with_field, with_method


def test_field():
    text = "pub struct Made {\n    pub n: u32,\n}\n\nfn made(n: u32) -> Made {\n    Made { n }\n}\n"
    assert with_field(text, "Made") == (
        "pub struct Made {\n    pub further: bool,\n    pub n: u32,\n}\n\n"
        "fn made(n: u32) -> Made {\n    Made { further: false, n }\n}\n"
    )


def test_required_method():
    trait = "pub trait Sink {\n    fn write(&mut self);\n}\n"
    assert "pub trait Sink {\n    fn further(&self) -> bool;\n\n    fn write" in with_method(trait, "Sink")
    body = " {\n    fn further(&self) -> bool {\n        false\n    }\n\n"
    for head in ("impl Sink for MemSink", "impl<W: Write> Sink for StdSink<W>"):
        assert with_method(f"{head} {{\n", "Sink") == f"{head}{body}"
    for other in ("impl Source for MemSource {\n", "pub trait Source {\n"):
        assert with_method(other, "Sink") == other
